struct Sensor {
    last: i32,
}
fn shift(a: &mut Sensor, b: &mut Sensor) {
    b.last = a.last;
    a.last = 0;
}
fn main() {
    let mut s = Sensor { last: 20 };
    let mut t = Sensor { last: 21 };
    t.last = 22;
    shift(&mut s, &mut s); // fault
    println!("{} {}", s.last, t.last);
}
