//! GDAL's programs, which say what another program reads in a sheet.
#![allow(dead_code)]
use std::fs;
use std::path::Path;
use std::process::Command;

/// Runs one of GDAL's programs in a folder, with words that are parted by blanks, and gives what it prints.
pub fn gdal(folder: &Path, words: &str) -> String {
    let mut words = words.split_whitespace();
    let program = words.next().unwrap();
    let output = Command::new(program).args(words.clone()).current_dir(folder).output();
    let output = output.unwrap_or_else(|error| panic!("{program}: {error}; it is in Debian's package gdal-bin"));
    let complaint = String::from_utf8_lossy(&output.stderr);
    assert!(output.status.success(), "{program} {:?}: {complaint}", words.collect::<Vec<_>>());
    assert!(!complaint.contains("ERROR"), "{program} {:?}: {complaint}", words.collect::<Vec<_>>());
    String::from_utf8(output.stdout).unwrap()
}

/// The cells of a raster as GDAL reads them: `gdal_translate` to a plain raw raster of floats.
pub fn read(folder: &Path, file: &str) -> Vec<f32> {
    gdal(folder, &format!("gdal_translate -q -of ENVI {file} {file}.raw"));
    let header = fs::read_to_string(folder.join(format!("{file}.hdr"))).unwrap();
    // ENVI's number for floats: where GDAL took the cells for whole numbers, it is another.
    assert!(header.contains("data type = 4\n"), "{file} is not of floats to GDAL: {header}");
    let bytes = fs::read(folder.join(format!("{file}.raw"))).unwrap();
    let (words, []) = bytes.as_chunks() else { panic!("{file}: a float has four bytes") };
    words.iter().map(|word| f32::from_le_bytes(*word)).collect()
}

/// The nodata value that GDAL sees.
pub fn nodata(folder: &Path, file: &str) -> Option<f32> {
    let said = gdal(folder, &format!("gdalinfo {file}"));
    let line = said.lines().find_map(|line| line.trim().strip_prefix("NoData Value="))?;
    Some(line.parse().unwrap())
}
