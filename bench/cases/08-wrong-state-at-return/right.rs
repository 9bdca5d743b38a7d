use std::marker::PhantomData;
struct Off;
struct On;
struct Sensor<S> {
    last: i32,
    state: PhantomData<S>,
}
fn make() -> Sensor<Off> {
    Sensor { last: 20, state: PhantomData }
}
fn on(s: Sensor<Off>) -> Sensor<On> {
    Sensor { last: s.last, state: PhantomData }
}
fn off(s: Sensor<On>) -> Sensor<Off> {
    Sensor { last: s.last, state: PhantomData }
}
fn value(s: &Sensor<On>) -> i32 {
    s.last
}
fn release(s: Sensor<Off>) {
    println!("{}", s.last);
}
fn measure(s: Sensor<Off>) -> Sensor<Off> {
    let s = on(s);
    println!("{}", value(&s));
    off(s)
}
fn main() {
    release(measure(make()));
}
