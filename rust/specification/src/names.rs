//! What names mean in a file of antt, or in the contracts of a file of Rattle.

use std::collections::{HashMap, HashSet};

use crate::blocks::{Brings, Use};
use crate::files::{Content, File, Folder};
use crate::index::{Index, Module, Target};
use crate::scope::{key, Path, Scope};

/// The top of each path to a module of a crate.
const TOP: &str = "Rattle";

pub struct Names<'a> {
    files: &'a [File],
    index: &'a Index,
    file: usize,
    brought: HashMap<String, Target>,
    /// What is brought in under another name than its own.
    renamed: HashSet<String>,
}

/// What names mean.
#[derive(Clone, Debug, Default)]
pub struct Meant {
    pub nodes: Vec<usize>,
    /// Of the toolchain's libraries, as `lib.ListN.getD`.
    pub library: Vec<String>,
    /// What goes by another name than its own: through a module, or brought in under
    /// another name.
    pub aliases: Vec<(usize, String)>,
}

impl<'a> Names<'a> {
    pub fn new(files: &'a [File], index: &'a Index, file: usize, uses: &[Use]) -> Names<'a> {
        let mut names = Names {
            files,
            index,
            file,
            brought: HashMap::new(),
            renamed: HashSet::new(),
        };
        for line in uses {
            names.bring(line);
        }
        names
    }

    fn bring(&mut self, line: &Use) {
        let module = self.module(&line.module);
        match &line.brings {
            Brings::Module(name) => {
                let target = Target::Module(module);
                self.brought.insert(key(name).to_string(), target);
            }
            Brings::Names(items) => {
                for (item, name) in items {
                    if item != name {
                        self.renamed.insert(name.clone());
                    }
                    let missing = || Target::External(item.clone());
                    let target = self.member(&module, item).unwrap_or_else(missing);
                    self.brought.insert(key(name).to_string(), target);
                }
            }
        }
    }

    /// The module of a path from the top.
    fn module(&self, path: &[String]) -> Module {
        let external = || Module::External(path.join("."));
        self.ours(path).unwrap_or_else(external)
    }

    /// A module of this repository's crates: `Rattle.crate.specs.File`, so too of
    /// `proofs`; a declared type; or what the checker makes of a function.
    fn ours(&self, path: &[String]) -> Option<Module> {
        let [top, package, rest @ ..] = path else {
            return None;
        };
        let is_ours = top == TOP && self.index.packages.contains(package);
        let item = |name: &str| self.index.items(package, name).first().copied();
        let parts: Vec<&str> = rest
            .iter()
            .map(String::as_str)
            .filter(|_| is_ours)
            .collect();
        match parts[..] {
            ["specs", "declared", .., of, "TheVariants"] => item(of).map(Module::Variants),
            ["specs", "declared", .., of] => item(of).map(Module::Type),
            [folder, ..] => {
                let folder = match folder {
                    "specs" => Folder::Specs,
                    _ => Folder::Proofs,
                };
                let place = (package.to_string(), folder, parts[1..].join("."));
                let file = self.index.modules.get(&place).copied();
                file.map(Module::File).or_else(|| {
                    let folder = parts.iter().rev().nth(1)?;
                    let name = folder.split('+').find(|name| !name.is_empty())?;
                    item(name).map(Module::Function)
                })
            }
            [] => None,
        }
    }

    /// What a name means in a module.
    fn member(&self, module: &Module, name: &str) -> Option<Target> {
        match module {
            Module::External(path) => Some(Target::External(format!("{path}.{name}"))),
            Module::Type(node) => Some(Target::Node(*node)),
            // what the checker makes of a function has the ways through its branches
            Module::Variants(node) | Module::Function(node) => Some(Target::Constructor(*node)),
            Module::File(file) => {
                let place = (*file, key(name).to_string());
                let declared = self.index.declared.get(&place).cloned();
                declared.or_else(|| self.passed(*file, name))
            }
        }
    }

    /// What a name means that a module passes on.
    fn passed(&self, file: usize, name: &str) -> Option<Target> {
        let Content::Antt(source) = &self.files[file].content else {
            return None;
        };
        for line in source.uses.iter().filter(|line| line.public) {
            if let Brings::Names(items) = &line.brings {
                if let Some((item, _)) = items.iter().find(|(_, called)| called == name) {
                    let taken = (file, name.to_string());
                    self.index.taken.borrow_mut().insert(taken);
                    return self.member(&self.module(&line.module), item);
                }
            }
        }
        None
    }

    fn target(&self, path: &[String]) -> Option<Target> {
        let first = key(path.first()?);
        if path.len() > 1 && path[0] == TOP {
            let module = self.module(&path[..path.len() - 1]);
            return self.member(&module, path.last()?);
        }
        let here = self.index.declared.get(&(self.file, first.to_string()));
        let target = here.or_else(|| self.brought.get(first))?;
        match (target, path.get(1)) {
            (Target::Module(module), Some(name)) => self.member(module, name),
            _ => Some(target.clone()),
        }
    }

    /// What paths mean; what they are brought in by is marked as used.
    pub fn meant(&self, paths: &[Path], used: &mut HashSet<String>) -> Meant {
        let mut meant = Meant::default();
        for path in paths {
            used.insert(key(&path[0]).to_string());
            match self.target(path) {
                Some(Target::Node(node) | Target::Constructor(node)) => {
                    meant.nodes.push(node);
                    let is_through = path.len() > 1 && path[0] != TOP;
                    if is_through || self.renamed.contains(&path[0]) {
                        meant.aliases.push((node, path[0].clone()));
                    }
                }
                Some(Target::External(name)) => meant.library.push(name),
                Some(Target::Module(_)) | None => {}
            }
        }
        meant.nodes.sort_unstable();
        meant.nodes.dedup();
        meant
    }
}

impl Scope for Names<'_> {
    fn is_constructor(&self, path: &[String]) -> bool {
        let target = self.target(path);
        matches!(target, Some(Target::Constructor(_) | Target::External(_)))
    }

    fn is_module(&self, name: &str) -> bool {
        name == TOP || matches!(self.brought.get(name), Some(Target::Module(_)))
    }

    fn is_point(&self, name: &str) -> bool {
        let brought = self.brought.get(name);
        matches!(brought, Some(Target::Constructor(node)) if self.index.functions.contains(node))
    }
}

/// The names of import lines that are not among those used, each with its line; of a
/// line that brings nothing in, its module.
pub fn unused(lines: &[Use], used: &HashSet<String>) -> Vec<(usize, String)> {
    let mut unused = vec![];
    for line in lines {
        let names = match &line.brings {
            Brings::Names(names) => names.iter().map(|(_, name)| name.clone()).collect(),
            Brings::Module(name) => vec![name.clone()],
        };
        if names.is_empty() {
            unused.push((line.line, line.module.join(".")));
        }
        let is_unused = |name: &String| !used.contains(key(name));
        let names = names.into_iter().filter(is_unused);
        unused.extend(names.map(|name| (line.line, name)));
    }
    unused
}
