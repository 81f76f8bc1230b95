// Included twice by rust.rs, over the untouched and over the ascending Rust. The questions are accepted ones.

pub fn remove_unused_attrs(mesh: &Mesh) -> Compacted {
    let mut rust = into_rust(mesh).unwrap();
    rust.remove_unused_attrs();
    Compacted {
        corners: with_marks_kept(mesh, &flat_corners(rust.faces())),
        positions: rust.positions().iter().flat_map(|p| [p.x, p.y, p.z]).collect(),
        textures: rust.uv_coords().iter().flat_map(|p| [p.x, p.y]).collect(),
        normals: rust.normals().iter().flat_map(|p| [p.x, p.y, p.z]).collect(),
    }
}

/// The Rust gives no origins and knows no marks. It is asked once more, about the same corners told apart by their texture points; no rule of the
/// removal looks at these, so both results must be alike but for them, and say of each corner which one it is.
pub fn remove_degenerate_faces(mesh: &Mesh) -> Unfolded {
    let (mut rust, mut apart) = (into_rust(mesh).unwrap(), into_rust(&told_apart(mesh)).unwrap());
    rust.remove_degenerate_faces();
    apart.remove_degenerate_faces();
    let (corners, sizes) = (flat_corners(rust.faces()), sizes(rust.faces()));
    let taken = taken(apart.faces(), &corners, &sizes);
    Unfolded { origins: origins(mesh, &taken, &sizes), corners: with_marks(mesh, &corners, &taken), sizes }
}

/// The Rust leaves texture points and normals as they are; which corners are old ones is told as in the removal.
pub fn loop_subdivision(mesh: &Mesh) -> Smoothed {
    let (mut rust, mut apart) = (into_rust(mesh).unwrap(), into_rust(&told_apart(mesh)).unwrap());
    rust.loop_subdivision();
    apart.loop_subdivision();
    let (corners, sizes) = (flat_corners(rust.faces()), sizes(rust.faces()));
    Smoothed {
        positions: rust.positions().iter().flat_map(|p| [p.x, p.y, p.z]).collect(),
        corners: with_marks(mesh, &corners, &taken(apart.faces(), &corners, &sizes)),
        sizes,
    }
}

pub fn put_together_same_attrs(mesh: &Mesh, tolerance: f64) -> Merged {
    let mut rust = into_rust(mesh).unwrap();
    let pairs = compared_pairs(&rust, tolerance);
    rust.put_together_same_attrs(tolerance);
    Merged { corners: with_marks_kept(mesh, &flat_corners(rust.faces())), pairs }
}

pub fn shell_condition(mesh: &Mesh) -> Verdict {
    match into_rust(mesh).unwrap().shell_condition() as u32 {
        0 => Verdict::Irregular,
        1 => Verdict::Regular,
        2 => Verdict::Oriented,
        _ => Verdict::Closed,
    }
}

/// From the Rust's map `boundary`, by (lower, higher).
pub fn hem_edges(mesh: &Mesh) -> Vec<[u32; 2]> {
    boundary(into_rust(mesh).unwrap().faces()).into_iter().map(|[start, end]| [start as u32, end as u32]).collect()
}

pub fn extract_boundaries(mesh: &Mesh) -> Vec<Vec<u32>> {
    narrow(into_rust(mesh).unwrap().extract_boundaries())
}

pub fn components(mesh: &Mesh, use_normal: bool) -> Vec<Vec<u32>> {
    narrow(into_rust(mesh).unwrap().components(use_normal))
}

/// The start and the length of face k in the flat corners, by the Rust's own order of its faces.
fn face(mesh: &Mesh, k: usize) -> Answer {
    let rust = into_rust(mesh).unwrap();
    let before: usize = rust.face_iter().take(k).map(|face| face.len()).sum();
    if k < rust.faces().len() {
        Answer::face(WIDTH * before, WIDTH * rust.faces()[k].len())
    } else {
        Answer::face(0, 0)
    }
}

fn answered(call: Call, question: &Question) -> Option<Answer> {
    let mesh = &question.mesh;
    Some(match call {
        Call::MeshNumber => Answer::mesh_number(if into_rust(mesh).is_some() { 0 } else { 5 }),
        Call::Face => face(mesh, question.face),
        Call::RemoveUnusedAttrs => Answer::compacted(remove_unused_attrs(mesh)),
        Call::RemoveDegenerateFaces => Answer::unfolded(remove_degenerate_faces(mesh)),
        Call::PutTogetherSameAttrs => Answer::merged(put_together_same_attrs(mesh, question.tolerance)),
        Call::ShellCondition => Answer::verdict(shell_condition(mesh)),
        Call::HemEdges => Answer::hem_edges(&hem_edges(mesh)),
        Call::ExtractBoundaries => Answer::rows(&extract_boundaries(mesh)),
        Call::Components => Answer::rows(&components(mesh, question.use_normal)),
        Call::Push => {
            let (faces, apart) = (pushed(mesh), pushed(&told_apart(mesh)));
            let (corners, sizes) = (flat_corners(&faces), sizes(&faces));
            Answer::pushed(Pushed { corners: with_marks(mesh, &corners, &taken(&apart, &corners, &sizes)), sizes })
        }
        Call::LoopSubdivision => Answer::smoothed(loop_subdivision(mesh)),
        Call::HouseWires | Call::ReadPanel | Call::WritePanel | Call::CleanPanel | Call::Sheet => return None,
        Call::ReadScan | Call::ScanSheet => return None,
        Call::ListHems | Call::HemSheet => return None,
        // The Rust has one merging, and is asked it with the plain engine's question, which is this one's too.
        Call::PutTogetherByCell => return None,
        // It has no second compaction either: what moves in place is held to the ordinary one, which it has.
        Call::CompactInPlace => return None,
    })
}
