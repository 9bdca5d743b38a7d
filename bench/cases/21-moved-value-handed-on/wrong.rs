struct Sensor {
    last: i32,
}
fn consume(s: Sensor) {
    println!("{}", s.last);
}
fn main() {
    let s = Sensor { last: 20 };
    consume(s);
    consume(s); // fault
}
