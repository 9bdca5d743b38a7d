struct Sensor {
    last: i32,
}
struct Pair {
    size: Box<i32>,
    left: Sensor,
    right: Sensor,
}
fn open(p: Pair) -> (Sensor, Sensor) {
    (p.left, p.right)
}
fn main() {
    let s = Sensor { last: 20 };
    let t = Sensor { last: 21 };
    let p = Pair { size: Box::new(2), left: s, right: t };
    println!("{}", p.size);
    let (left, right) = open(p);
    println!("{} {}", left.last, right.last);
}
