struct Sensor {
    last: i32,
}
fn main() {
    let s = Sensor { last: 20 };
    drop(s);
    println!("{}", s.last); // fault
}
