struct Sensor {
    last: i32,
}
fn main() {
    let s = Sensor { last: 20 };
    let mut i = 0;
    while i < 3 {
        println!("{}", s.last);
        i += 1;
    }
    drop(s);
}
