enum Status {
    Bound,
    Failed(i32),
}
fn bind(port: i32) -> Status {
    if port > 0 {
        Status::Bound
    } else {
        Status::Failed(port)
    }
}
fn main() {
    match bind(80) {
        Status::Bound => println!("bound"),
        Status::Failed(code) => println!("{}", code),
    }
}
