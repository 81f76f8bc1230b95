/// The edges in the Rust's map of the boundary, each from its start to its end, by (lower, higher).
pub fn boundary(faces: &Faces) -> Vec<[usize; 2]> {
    let found: Boundaries = faces.face_iter().flat_map(face_edge_iter).collect();
    let mut edges: Vec<_> = found.boundary.into_iter().collect();
    edges.sort();
    edges.into_iter().map(|([lower, higher], ascends)| if ascends { [lower, higher] } else { [higher, lower] }).collect()
}
