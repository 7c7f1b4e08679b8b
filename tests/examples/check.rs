use bindlewort_tests::{check, NOW};

fn main() {
    let nodes = [0, 1, 0, 1, 2, 0, 1, 2, 0, 1, 3, 0, 1, 4, 0, 4, 5, 0];
    let edges = [0, 1, 0, NOW, 0, 2, 0, NOW, 1, 3, 10, 49, 2, 3, 50, 99, 1, 4, 20, 120, 4, 5, 20, 120];
    let refs = [5, 3, 20, 120];
    let a = check(0, &nodes, &edges, &refs);
    println!("{} {} {}", a.code, a.instant, a.place);
}
