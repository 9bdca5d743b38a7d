struct Sensor {
    last: i32,
}
fn main() {
    let s = Sensor { last: 20 };
    let t = &s;
    drop(s); // fault
    println!("{}", t.last);
}
