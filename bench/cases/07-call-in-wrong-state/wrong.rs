use std::marker::PhantomData;
struct Raw;
struct Named;
struct Sock<S> {
    state: PhantomData<S>,
}
fn socket() -> Sock<Raw> {
    Sock { state: PhantomData }
}
fn choose_port(_: Sock<Raw>) -> Sock<Named> {
    Sock { state: PhantomData }
}
fn listen(_: Sock<Named>) {}
fn main() {
    let s = socket();
    listen(s); // fault
    drop(choose_port(socket()));
}
