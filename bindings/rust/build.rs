//! Links libchess_corners.a, from the folder that CHESS_CORNERS_LIB names.

fn main() {
    println!("cargo:rerun-if-env-changed=CHESS_CORNERS_LIB");
    match std::env::var("CHESS_CORNERS_LIB") {
        Ok(folder) => {
            let archive = format!("{folder}/libchess_corners.a");
            if !std::path::Path::new(&archive).exists() {
                panic!("CHESS_CORNERS_LIB names {folder}, where there is no libchess_corners.a: build the archive first (`compare/archive` prints its folder)");
            }
            println!("cargo:rustc-link-search=native={folder}");
            println!("cargo:rerun-if-changed={archive}");
        }
        // The documentation can be made without the archive; a program cannot be linked.
        Err(_) => println!("cargo:warning=chess_corners: CHESS_CORNERS_LIB is not set; a program links only where it names the folder of libchess_corners.a"),
    }
    println!("cargo:rustc-link-lib=static=chess_corners");
}
