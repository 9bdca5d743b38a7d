use std::marker::PhantomData;
struct Pending;
struct Served;
struct Request<S> {
    state: PhantomData<S>,
}
fn take() -> Request<Pending> {
    Request { state: PhantomData }
}
fn serve(_: Request<Pending>) -> Request<Served> {
    Request { state: PhantomData }
}
fn complete(_: Request<Served>) {}
fn main() {
    let q = take();
    complete(q); // fault
    complete(serve(take()));
}
