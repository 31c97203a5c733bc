//! `make_good`: writes data/good.rul beside this project's Cargo.toml.

fn main() -> std::io::Result<()> {
    let path = concat!(env!("CARGO_MANIFEST_DIR"), "/data/good.rul");
    std::fs::write(path, compare::good::good_bytes())
}
