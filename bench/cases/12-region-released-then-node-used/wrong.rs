struct Node {
    value: i32,
}
struct Region {
    nodes: Vec<Node>,
}
fn main() {
    let r = Region { nodes: vec![Node { value: 7 }] };
    let n = &r.nodes[0];
    drop(r); // fault
    println!("{}", n.value);
}
