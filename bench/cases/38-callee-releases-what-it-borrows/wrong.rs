struct Sensor {
    last: i32,
}
fn show(s: &Sensor) {
    println!("{}", s.last);
    drop(*s); // fault
}
fn main() {
    let s = Sensor { last: 20 };
    show(&s);
    drop(s);
}
