/// How many pairs the Rust's merging compares in positions, texture points and normals: the unordered pairs that share one of its own blocks.
/// (The Rust scales the positions inside its call; here they are scaled again, as document 01 says.)
pub fn compared_pairs(mesh: &PolygonMesh, tolerance: f64) -> [u64; 3] {
    let around: BoundingBox<Point3> = mesh.positions().iter().collect();
    let divisor = around.diagonal().map(|side| side.max(1.0));
    let scaled: Vec<Vector3> =
        mesh.positions().iter().map(|p| 2.0 * (*p - around.center()).zip(divisor, |from_centre, by| from_centre / by)).collect();
    [
        pairs_in_a_block(create_blocks(&scaled, tolerance), scaled.len()),
        pairs_in_a_block(create_blocks(mesh.uv_coords(), tolerance), mesh.uv_coords().len()),
        pairs_in_a_block(create_blocks(mesh.normals(), tolerance), mesh.normals().len()),
    ]
}

fn pairs_in_a_block<K>(blocks: HashMap<K, Vec<usize>>, points: usize) -> u64 {
    let mut together = vec![false; points * points];
    for (_, block) in blocks {
        for (k, i) in block.iter().enumerate() {
            block[k + 1..].iter().for_each(|j| together[i * points + j] = true);
        }
    }
    together.into_iter().filter(|pair| *pair).count() as u64
}
