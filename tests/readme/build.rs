// Takes what stands between ```rust and ``` in each README, as it is, into a module with a test that runs its `main`.
use std::{env, fs, path::Path};

const READMES: [(&str, &str, usize); 2] =
    [("readme", "../../README.md", 7), ("rust_readme", "../../rust/README.md", 7)];

fn main() {
    let mut modules = String::new();
    for (name, file, expected) in READMES {
        println!("cargo:rerun-if-changed={file}");
        let text = fs::read_to_string(file).unwrap_or_else(|error| panic!("{file}: {error}"));
        let programs: Vec<&str> =
            text.split("```rust\n").skip(1).map(|rest| rest.split("```").next().unwrap()).collect();
        assert_eq!(programs.len(), expected, "programs in Rust in {file}");
        for (index, program) in programs.iter().enumerate() {
            let test = "#[test]\nfn runs() {\n    main().unwrap();\n}\n";
            modules += &format!("mod {name}_{} {{\n{program}\n{test}}}\n", index + 1);
        }
    }
    fs::write(Path::new(&env::var("OUT_DIR").unwrap()).join("programs.rs"), modules).unwrap();
}
