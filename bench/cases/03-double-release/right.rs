struct Sensor {
    last: i32,
}
fn main() {
    let s = Sensor { last: 20 };
    println!("{}", s.last);
    drop(s);
}
