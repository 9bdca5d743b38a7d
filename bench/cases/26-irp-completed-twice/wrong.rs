use std::marker::PhantomData;
struct Pending;
struct Served;
struct Request<S> {
    state: PhantomData<S>,
}
fn take() -> Request<Pending> {
    Request { state: PhantomData }
}
fn serve(_: Request<Pending>) -> Request<Served> {
    Request { state: PhantomData }
}
fn complete(_: Request<Served>) {}
fn main() {
    let q = serve(take());
    complete(q);
    complete(q); // fault
}
