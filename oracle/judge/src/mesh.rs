//! A mesh as the product has it, and what the calls make of one.

/// The index that means 'missing'.
pub const MISSING: u32 = 4_294_967_295;

/// How many numbers a corner has, and how many of them the rules read: the last is its mark, which no rule tests.
pub const WIDTH: usize = 4;
pub const INDICES: usize = 3;

/// The five lists: three numbers to a position and a normal, two to a texture point, `WIDTH` to a corner.
#[derive(Clone, Debug, Default)]
pub struct Mesh {
    pub positions: Vec<f64>,
    pub textures: Vec<f64>,
    pub normals: Vec<f64>,
    pub corners: Vec<u32>,
    pub sizes: Vec<u32>,
}

/// Position, texture point, normal, and the mark, 0 for none (request 11 of document 02).
pub type Corner = [u32; WIDTH];

impl Mesh {
    pub fn corner_count(&self) -> usize {
        self.corners.len() / WIDTH
    }

    /// The faces of a mesh whose sizes add up to its corners.
    pub fn faces(&self) -> Vec<Vec<Corner>> {
        let mut corners = self.corners.chunks(WIDTH).map(|corner| -> Corner { corner.try_into().unwrap() });
        self.sizes.iter().map(|size| corners.by_ref().take(*size as usize).collect()).collect()
    }

    /// The mark of each corner; a list that is cut in its last corner, which is refused, has none there.
    pub fn marks(&self) -> impl Iterator<Item = u32> + '_ {
        self.corners.chunks_exact(WIDTH).map(|corner| corner[INDICES])
    }

    /// The same attribute lists with other faces, in the order given.
    pub fn with_faces(&self, faces: &[Vec<Corner>]) -> Mesh {
        Mesh {
            corners: faces.iter().flatten().flatten().copied().collect(),
            sizes: faces.iter().map(|face| face.len() as u32).collect(),
            ..self.clone()
        }
    }
}

/// From the weakest to the strongest; as a number, 0 to 3.
#[derive(Clone, Copy, Debug, PartialEq, Eq)]
pub enum Verdict {
    Irregular,
    Regular,
    Oriented,
    Closed,
}

/// What compaction gives.
pub struct Compacted {
    pub corners: Vec<u32>,
    pub positions: Vec<f64>,
    pub textures: Vec<f64>,
    pub normals: Vec<f64>,
}

/// What compaction in place leaves: the mesh's own lists, each as long as it was, how many positions, texture points and normals of them count, and the
/// stated entries of the number list.
pub struct Moved {
    pub mesh: Mesh,
    pub counts: [usize; 3],
    pub numbers: Vec<u32>,
}

/// Faces that were given in any order, grouped.
pub struct Pushed {
    pub corners: Vec<u32>,
    pub sizes: Vec<u32>,
}

/// What the removal of folded faces gives; for each face of it the number of the face it came from.
pub struct Unfolded {
    pub corners: Vec<u32>,
    pub sizes: Vec<u32>,
    pub origins: Vec<u32>,
}

/// What smoothing gives.
pub struct Smoothed {
    pub positions: Vec<f64>,
    pub corners: Vec<u32>,
    pub sizes: Vec<u32>,
}

/// A hem as the list of hems has it: the number of its panel, how many edges it has, and its length in tenths of a millimetre.
#[derive(Clone, Copy, Debug, PartialEq, Eq)]
pub struct Hem {
    pub panel: u32,
    pub edges: u32,
    pub length: u64,
}

/// What merging gives; the pairs it compared in positions, texture points and normals.
pub struct Merged {
    pub corners: Vec<u32>,
    pub pairs: [u64; 3],
}
