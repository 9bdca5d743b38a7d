struct Sensor {
    last: i32,
}
fn pair(a: Sensor, b: Sensor) {
    println!("{} {}", a.last, b.last);
}
fn main() {
    let s = Sensor { last: 20 };
    let t = Sensor { last: 21 };
    pair(s, s); // fault
    drop(t);
}
