//! The library's functions as C has them: a list is a pointer and a length. `tools/check_declarations` holds this block to the
//! source of the library, name by name, order by order, type by type.

#[rustfmt::skip] // a list to a line
extern "C" {
    pub fn bh_mesh_number(
        positions: *const f64, positions_len: usize,
        textures: *const f64, textures_len: usize,
        normals: *const f64, normals_len: usize,
        corners: *const u32, corners_len: usize,
        sizes: *const u32, sizes_len: usize,
    ) -> u32;

    pub fn bh_face(
        positions: *const f64, positions_len: usize,
        textures: *const f64, textures_len: usize,
        normals: *const f64, normals_len: usize,
        corners: *const u32, corners_len: usize,
        sizes: *const u32, sizes_len: usize,
        k: usize,
        start: *mut usize,
        len: *mut usize,
    );

    pub fn bh_push(
        corners: *const u32, corners_len: usize,
        sizes: *const u32, sizes_len: usize,
        newcorners: *mut u32, newcorners_len: usize,
        newsizes: *mut u32, newsizes_len: usize,
        cornercount: *mut usize,
        facecount: *mut usize,
    ) -> u32;

    pub fn bh_remove_unused_attrs(
        positions: *const f64, positions_len: usize,
        textures: *const f64, textures_len: usize,
        normals: *const f64, normals_len: usize,
        corners: *const u32, corners_len: usize,
        sizes: *const u32, sizes_len: usize,
        newcorners: *mut u32, newcorners_len: usize,
        newpositions: *mut f64, newpositions_len: usize,
        newtextures: *mut f64, newtextures_len: usize,
        newnormals: *mut f64, newnormals_len: usize,
        positioncount: *mut usize,
        texturecount: *mut usize,
        normalcount: *mut usize,
    ) -> u32;

    pub fn bh_compact_in_place(
        positions: *mut f64, positions_len: usize,
        textures: *mut f64, textures_len: usize,
        normals: *mut f64, normals_len: usize,
        corners: *mut u32, corners_len: usize,
        sizes: *const u32, sizes_len: usize,
        numbers: *mut u32, numbers_len: usize,
        positioncount: *mut usize,
        texturecount: *mut usize,
        normalcount: *mut usize,
    ) -> u32;

    pub fn bh_remove_degenerate_faces(
        positions: *const f64, positions_len: usize,
        textures: *const f64, textures_len: usize,
        normals: *const f64, normals_len: usize,
        corners: *const u32, corners_len: usize,
        sizes: *const u32, sizes_len: usize,
        newcorners: *mut u32, newcorners_len: usize,
        newsizes: *mut u32, newsizes_len: usize,
        origins: *mut u32, origins_len: usize,
        cornercount: *mut usize,
        facecount: *mut usize,
    ) -> u32;

    pub fn bh_put_together_same_attrs(
        positions: *const f64, positions_len: usize,
        textures: *const f64, textures_len: usize,
        normals: *const f64, normals_len: usize,
        corners: *const u32, corners_len: usize,
        sizes: *const u32, sizes_len: usize,
        tolerance: f64,
        newcorners: *mut u32, newcorners_len: usize,
        positionpairs: *mut usize,
        texturepairs: *mut usize,
        normalpairs: *mut usize,
    ) -> u32;

    pub fn bh_put_together_by_cell(
        positions: *const f64, positions_len: usize,
        textures: *const f64, textures_len: usize,
        normals: *const f64, normals_len: usize,
        corners: *const u32, corners_len: usize,
        sizes: *const u32, sizes_len: usize,
        tolerance: f64,
        newcorners: *mut u32, newcorners_len: usize,
        positionpairs: *mut usize,
        texturepairs: *mut usize,
        normalpairs: *mut usize,
    ) -> u32;

    pub fn bh_loop_subdivision(
        positions: *const f64, positions_len: usize,
        textures: *const f64, textures_len: usize,
        normals: *const f64, normals_len: usize,
        corners: *const u32, corners_len: usize,
        sizes: *const u32, sizes_len: usize,
        ones: *const f64, ones_len: usize,
        twos: *const f64, twos_len: usize,
        newpositions: *mut f64, newpositions_len: usize,
        newcorners: *mut u32, newcorners_len: usize,
        newsizes: *mut u32, newsizes_len: usize,
        positioncount: *mut usize,
        cornercount: *mut usize,
        facecount: *mut usize,
    ) -> u32;

    pub fn bh_shell_condition(
        positions: *const f64, positions_len: usize,
        textures: *const f64, textures_len: usize,
        normals: *const f64, normals_len: usize,
        corners: *const u32, corners_len: usize,
        sizes: *const u32, sizes_len: usize,
        verdict: *mut u32,
    ) -> u32;

    pub fn bh_hem_edges(
        positions: *const f64, positions_len: usize,
        textures: *const f64, textures_len: usize,
        normals: *const f64, normals_len: usize,
        corners: *const u32, corners_len: usize,
        sizes: *const u32, sizes_len: usize,
        starts: *mut u32, starts_len: usize,
        ends: *mut u32, ends_len: usize,
        count: *mut usize,
    ) -> u32;

    pub fn bh_extract_boundaries(
        positions: *const f64, positions_len: usize,
        textures: *const f64, textures_len: usize,
        normals: *const f64, normals_len: usize,
        corners: *const u32, corners_len: usize,
        sizes: *const u32, sizes_len: usize,
        flat: *mut u32, flat_len: usize,
        lengths: *mut u32, lengths_len: usize,
        flatcount: *mut usize,
        wirecount: *mut usize,
    ) -> u32;

    pub fn bh_house_wires(
        positions: *const f64, positions_len: usize,
        textures: *const f64, textures_len: usize,
        normals: *const f64, normals_len: usize,
        corners: *const u32, corners_len: usize,
        sizes: *const u32, sizes_len: usize,
        flat: *mut u32, flat_len: usize,
        lengths: *mut u32, lengths_len: usize,
        flatcount: *mut usize,
        wirecount: *mut usize,
    ) -> u32;

    pub fn bh_components(
        positions: *const f64, positions_len: usize,
        textures: *const f64, textures_len: usize,
        normals: *const f64, normals_len: usize,
        corners: *const u32, corners_len: usize,
        sizes: *const u32, sizes_len: usize,
        use_normal: bool,
        flat: *mut u32, flat_len: usize,
        lengths: *mut u32, lengths_len: usize,
        flatcount: *mut usize,
        panelcount: *mut usize,
    ) -> u32;

    pub fn bh_list_hems(
        positions: *const f64, positions_len: usize,
        textures: *const f64, textures_len: usize,
        normals: *const f64, normals_len: usize,
        corners: *const u32, corners_len: usize,
        sizes: *const u32, sizes_len: usize,
        triples: *const i32, triples_len: usize,
        panels: *mut u32, panels_len: usize,
        edges: *mut u32, edges_len: usize,
        lengths: *mut u64, lengths_len: usize,
        hems: *mut usize,
    ) -> u32;

    pub fn bh_read_panel(
        file: *const u8, file_len: usize,
        positions: *mut f64, positions_len: usize,
        textures: *mut f64, textures_len: usize,
        normals: *mut f64, normals_len: usize,
        corners: *mut u32, corners_len: usize,
        sizes: *mut u32, sizes_len: usize,
        positioncount: *mut usize,
        texturecount: *mut usize,
        normalcount: *mut usize,
        cornercount: *mut usize,
        facecount: *mut usize,
    ) -> u32;

    pub fn bh_read_scan(
        file: *const u8, file_len: usize,
        positions: *mut f64, positions_len: usize,
        textures: *mut f64, textures_len: usize,
        normals: *mut f64, normals_len: usize,
        corners: *mut u32, corners_len: usize,
        sizes: *mut u32, sizes_len: usize,
        positioncount: *mut usize,
        texturecount: *mut usize,
        normalcount: *mut usize,
        cornercount: *mut usize,
        facecount: *mut usize,
    ) -> u32;

    pub fn bh_write_panel(
        positions: *const f64, positions_len: usize,
        textures: *const f64, textures_len: usize,
        normals: *const f64, normals_len: usize,
        corners: *const u32, corners_len: usize,
        sizes: *const u32, sizes_len: usize,
        file: *mut u8, file_len: usize,
        length: *mut usize,
    ) -> u32;

    pub fn bh_clean_panel(
        file: *const u8, file_len: usize,
        cleaned: *mut u8, cleaned_len: usize,
        length: *mut usize,
    ) -> u32;

    pub fn bh_sheet(
        file: *const u8, file_len: usize,
        text: *mut u8, text_len: usize,
        length: *mut usize,
    ) -> u32;

    pub fn bh_hem_sheet(
        file: *const u8, file_len: usize,
        text: *mut u8, text_len: usize,
        length: *mut usize,
    ) -> u32;
}
