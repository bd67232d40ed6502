//! Within this package and within `icl`, imports go one way: no module reaches itself again through those that it imports, be it through
//! another module, through several, or through the crate's root. So each can be read knowing only those below it.

use std::collections::{BTreeMap, BTreeSet};

/// What goes for the crate's root, `lib.rs` or `main.rs`.
const ROOT: &str = "crate";

/// The modules that each module imports.
type Imports = BTreeMap<String, BTreeSet<String>>;

/// The sources of a package, by the names of the modules.
fn sources(folder: &str) -> BTreeMap<String, String> {
    let folder = format!("{}/{folder}", env!("CARGO_MANIFEST_DIR"));
    let mut sources = BTreeMap::new();
    for entry in std::fs::read_dir(folder).unwrap() {
        let path = entry.unwrap().path();
        assert!(path.extension().is_some_and(|end| end == "rs"), "{}: not looked into", path.display());
        let name = path.file_stem().unwrap().to_str().unwrap();
        let name = if ["lib", "main"].contains(&name) { ROOT } else { name };
        sources.insert(name.to_string(), std::fs::read_to_string(&path).unwrap());
    }
    sources
}

/// The code without comments and without its module of tests, which stands above all others and may use anything. In a module within
/// the file `super` is the file itself, and is left out. rustfmt puts the brace that ends such a module at the start of a line.
fn code(source: &str) -> String {
    let (mut code, mut inside, mut for_tests) = (String::new(), false, false);
    for line in source.lines().map(|line| line.split("//").next().unwrap_or_default()) {
        if line.starts_with("mod ") && line.ends_with('{') {
            inside = true;
        } else if line == "}" {
            (inside, for_tests) = (false, false);
        } else if !inside {
            for_tests = line == "#[cfg(test)]";
        }
        match (inside, for_tests) {
            (true, true) => {}
            (true, false) => code.push_str(&line.replace("super::", "")),
            (false, _) => code.push_str(line),
        }
        code.push('\n');
    }
    code
}

/// The first name of each path behind `crate::` or `super::`, which in a file below the root are the same.
fn names_behind_root(code: &str) -> BTreeSet<&str> {
    let is_letter = |letter: char| letter.is_alphanumeric() || letter == '_';
    let starts = ["crate::", "super::"].map(|start| code.match_indices(start));
    let paths = starts.into_iter().flatten().filter(|(at, _)| !code[..*at].ends_with(is_letter));
    let lists = paths.map(|(at, start)| heads(&code[at + start.len()..]));
    let first = |path: &'_ str| path.find(|letter| !is_letter(letter)).unwrap_or(path.len());
    lists.flatten().map(|path| path.trim()).map(|path| &path[..first(path)]).filter(|name| !name.is_empty()).collect()
}

/// The path itself, or the paths of a list in braces.
fn heads(path: &str) -> Vec<&str> {
    let Some(list) = path.strip_prefix('{') else { return vec![path] };
    let (mut depth, mut start, mut heads) = (0, 0, Vec::new());
    for (at, letter) in list.char_indices() {
        match letter {
            '{' => depth += 1,
            ',' | '}' if depth == 0 => {
                heads.push(&list[start..at]);
                start = at + 1;
                if letter == '}' {
                    break;
                }
            }
            '}' => depth -= 1,
            _ => {}
        }
    }
    heads
}

/// A name that is no module is an item of the root. The root imports every module that it declares.
fn imports(sources: &BTreeMap<String, String>) -> Imports {
    let module = |name: &str| if sources.contains_key(name) { name.to_string() } else { ROOT.to_string() };
    let of = |name: &String, source: &String| -> BTreeSet<String> {
        match name == ROOT {
            true => sources.keys().filter(|other| *other != ROOT).cloned().collect(),
            false => names_behind_root(&code(source)).into_iter().map(module).filter(|other| other != name).collect(),
        }
    };
    sources.iter().map(|(name, source)| (name.clone(), of(name, source))).collect()
}

/// The modules of circles: what is left when those that import none of the rest, or that none of the rest imports, have been taken away.
fn in_circles(mut imports: Imports) -> Imports {
    loop {
        let before = imports.len();
        let left: BTreeSet<String> = imports.keys().cloned().collect();
        imports.retain(|_, others| others.iter().any(|other| left.contains(other)));
        let imported: BTreeSet<String> = imports.values().flatten().cloned().collect();
        imports.retain(|name, _| imported.contains(name));
        if imports.len() == before {
            return imports;
        }
    }
}

#[test]
fn imports_go_one_way() {
    for (folder, known) in [("src", ("explain", "refusal")), ("../icl/src", ("screen", "stop"))] {
        let imports = imports(&sources(folder));
        assert!(imports[known.0].contains(known.1), "{folder}: {known:?} was not seen among {imports:?}");
        assert_eq!(in_circles(imports), Imports::new(), "{folder}: these import each other");
    }
}

/// The lines of the diagram in a package's root.
fn diagram(root: &str) -> Vec<&str> {
    let lines: Vec<&str> = root.lines().filter_map(|line| line.strip_prefix("//     ")).collect();
    assert!(!lines.is_empty());
    lines
}

/// In `lib.rs` each module imports only those that stand right of it on a line, and each arrow is an import.
#[test]
fn the_diagram_of_this_package_is_true() {
    let sources = sources("src");
    let imports = imports(&sources);
    let lines: Vec<Vec<&str>> = diagram(&sources[ROOT]).into_iter().map(|line| line.split(" → ").collect()).collect();
    let stands_right_of = |other: &str, name: &str| {
        let mut places = lines.iter().map(|line| [name, other].map(|name| line.iter().position(|word| *word == name)));
        places.any(|place| matches!(place, [Some(left), Some(right)] if left < right))
    };
    for (name, others) in imports.iter().filter(|(name, _)| *name != ROOT) {
        for other in others {
            assert!(stands_right_of(other, name), "{name} imports {other}");
        }
    }
    for pair in lines.iter().flat_map(|line| line.windows(2)) {
        assert!(imports[pair[0]].contains(pair[1]), "{pair:?}");
    }
}

/// In `main.rs` of `icl` each module imports only those on lines below its own.
#[test]
fn the_diagram_of_icl_is_true() {
    let sources = sources("../icl/src");
    let levels: Vec<Vec<&str>> = diagram(&sources[ROOT])
        .into_iter()
        .map(|line| line.split("  ").next().unwrap_or_default().split(", ").collect())
        .collect();
    let level = |name: &str| levels.iter().position(|names| names.contains(&name)).ok_or(name.to_string());
    for (name, others) in imports(&sources).iter().filter(|(name, _)| *name != ROOT) {
        for other in others {
            assert!(level(name).unwrap() < level(other).unwrap(), "{name} imports {other}");
        }
    }
}

/// The names of those that go round in these modules beside a root.
fn found(modules: &[(&str, &str)]) -> Vec<String> {
    let all = modules.iter().chain(&[(ROOT, "mod a;\nmod b;\nmod c;\n")]);
    let sources = all.map(|(name, source)| (name.to_string(), source.to_string())).collect();
    in_circles(imports(&sources)).into_keys().collect()
}

#[test]
fn circles_are_seen() {
    let (to_b, to_c) = (("a", "use crate::b::B;\n"), ("b", "use crate::{\n    c::{C, D},\n};\n"));
    assert_eq!(found(&[to_b, to_c, ("c", "")]), [""; 0]);
    assert_eq!(found(&[to_b, ("b", "fn f() {\n    crate::a::f()\n}\n"), ("c", "use crate::a::A;\n")]), ["a", "b"]);
    assert_eq!(found(&[to_b, to_c, ("c", "use super::a;\n")]), ["a", "b", "c"]);
    for through_root in
        ["use crate::{self as root};\n", "pub(crate) fn f() -> crate::Row {}\n", "use super::{b, Row};\n"]
    {
        assert_eq!(found(&[("a", ""), ("b", ""), ("c", through_root)]), ["c", "crate"], "{through_root}");
    }
    let harmless = [
        "// as crate::a::A\n/// See [`a`](crate::a).\n",
        "mod inner {\n    use super::A;\n}\n",
        "#[cfg(test)]\nmod tests {\n    use super::*;\n    use crate::a::A;\n}\n",
        "use crate::c::Own;\nuse my_crate::a::A;\n",
    ];
    for source in harmless {
        assert_eq!(found(&[to_b, to_c, ("c", source)]), [""; 0], "{source}");
    }
}
