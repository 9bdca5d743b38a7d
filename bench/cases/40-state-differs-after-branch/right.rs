use std::marker::PhantomData;
struct Off;
struct On;
struct Sensor<S> {
    last: i32,
    state: PhantomData<S>,
}
fn make() -> Sensor<Off> {
    Sensor { last: 20, state: PhantomData }
}
fn on(s: Sensor<Off>) -> Sensor<On> {
    Sensor { last: s.last, state: PhantomData }
}
fn off(s: Sensor<On>) -> Sensor<Off> {
    Sensor { last: s.last, state: PhantomData }
}
fn value(s: &Sensor<On>) -> i32 {
    s.last
}
fn release(s: Sensor<Off>) {
    println!("{}", s.last);
}
fn main() {
    let s = on(make());
    let n = std::env::args().count();
    let s = if n > 1 { on(off(s)) } else { s };
    println!("{}", value(&s));
    release(off(s));
}
