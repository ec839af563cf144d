//! The files of ../../sheets: the program's print on each.

use std::fs;
use std::path::Path;

#[test]
fn every_sheet_gives_its_print() {
    let folder = Path::new(env!("CARGO_MANIFEST_DIR")).join("../../sheets");
    let mut count = 0;
    for entry in fs::read_dir(folder).expect("the folder of sheets") {
        let path = entry.expect("a file").path();
        if path
            .extension()
            .is_some_and(|extension| extension == "sheet")
        {
            let text = fs::read(&path).expect("a sheet");
            let wanted = fs::read(path.with_extension("print")).expect("its print");
            let printed = reference::print(&text);
            assert_eq!(
                String::from_utf8_lossy(&printed),
                String::from_utf8_lossy(&wanted),
                "{:?}",
                path.file_name()
            );
            count += 1;
        }
    }
    assert_eq!(count, 39, "all sample sheets are there");
}
