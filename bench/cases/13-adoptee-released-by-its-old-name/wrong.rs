struct Node {
    value: i32,
}
struct Region {
    nodes: Vec<Node>,
}
fn main() {
    let mut r = Region { nodes: vec![] };
    let x = Node { value: 7 };
    println!("{}", x.value);
    r.nodes.push(x);
    drop(x); // fault
    drop(r);
}
