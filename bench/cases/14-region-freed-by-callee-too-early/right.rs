struct Node {
    value: i32,
}
struct Region {
    nodes: Vec<Node>,
}
fn finish(r: Region) {
    println!("{}", r.nodes.len());
}
fn main() {
    let r = Region { nodes: vec![Node { value: 7 }] };
    let n = &r.nodes[0];
    println!("{}", n.value);
    finish(r);
}
