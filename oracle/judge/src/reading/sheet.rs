//! The sheet that `meshsheet` prints.

use super::{cleaning, edges, house, panel_file, panels};
use crate::mesh::{Mesh, Verdict};

/// The most bytes of a file.
pub const FILE: usize = 65_536;

/// The stated room for the sheet's bytes.
pub const ROOM: usize = 65_536;

/// The whole output for a file.
pub fn sheet(file: &[u8]) -> String {
    let read = if file.len() > FILE { Err(1) } else { panel_file::read(file) };
    match read {
        Err(number) => format!("refused {number}\n"),
        Ok(mesh) => sheet_of(&cleaning::cleaned(mesh)),
    }
}

/// The lines of a mesh that was read and cleaned.
pub fn sheet_of(mesh: &Mesh) -> String {
    let (positions, textures, normals) = (mesh.positions.len() / 3, mesh.textures.len() / 2, mesh.normals.len() / 3);
    let verdict = edges::verdict(mesh);
    let mut sheet = format!("mesh {positions} {textures} {normals} {}\n", mesh.sizes.len());
    sheet += &format!("verdict {verdict:?}\n");
    sheet += &format!("panels {}\n", panels::components(mesh, false).len());
    if [Verdict::Irregular, Verdict::Regular].contains(&verdict) {
        return sheet + "hems refused 10\n";
    }
    for wire in house::house_wires(mesh) {
        let positions: String = wire.iter().map(|position| format!(" {position}")).collect();
        sheet += &format!("hem{positions}\n");
    }
    sheet
}
