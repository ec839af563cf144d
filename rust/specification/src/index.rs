//! Where names are found: the declarations and items of all files.

use std::cell::RefCell;
use std::collections::{HashMap, HashSet};

use crate::blocks::{self, Declaration};
use crate::code::{Form, Item};
use crate::files::{Content, File, Folder};
use crate::scope::key;

/// What a name means.
#[derive(Clone, Debug, PartialEq, Eq)]
pub enum Target {
    Node(usize),
    /// A constructor of a data type or an enum.
    Constructor(usize),
    Module(Module),
    /// Something of the toolchain's libraries, as `lib.ListN.getD`.
    External(String),
}

#[derive(Clone, Debug, PartialEq, Eq)]
pub enum Module {
    File(usize),
    /// What the checker makes of a function, for its proof.
    Function(usize),
    /// A declared type, and its variants.
    Type(usize),
    Variants(usize),
    External(String),
}

#[derive(Default)]
pub struct Index {
    /// By file and key; constructors too.
    pub declared: HashMap<(usize, String), Target>,
    /// By crate and name: functions, types and constants.
    pub items: HashMap<(String, String), Vec<usize>>,
    /// What an `impl` gives to a type, by name.
    pub methods: HashMap<String, Vec<usize>>,
    pub functions: HashSet<usize>,
    /// By crate and the folder of a proof: what it makes public.
    pub proofs: HashMap<(String, String), Vec<usize>>,
    /// The crates.
    pub packages: HashSet<String>,
    /// By crate, folder and name.
    pub modules: HashMap<(String, Folder, String), usize>,
    /// Names that files pass on, by file and name, where another takes them.
    pub taken: RefCell<HashSet<(usize, String)>>,
}

impl Index {
    /// Takes in a file, whose declarations or items are nodes from `first` on.
    pub fn add(&mut self, files: &[File], file: usize, first: usize) {
        let of = &files[file];
        self.packages.insert(of.package.clone());
        let module = (of.package.clone(), of.folder, of.name.clone());
        self.modules.insert(module, file);
        match &of.content {
            Content::Antt(source) => {
                for (node, declaration) in (first..).zip(&source.declarations) {
                    self.add_declaration(of, file, node, declaration);
                }
            }
            Content::Rattle(code) => {
                for (node, item) in (first..).zip(&code.items) {
                    self.add_item(&of.package, node, item);
                }
            }
        }
    }

    fn add_declaration(&mut self, of: &File, file: usize, node: usize, it: &Declaration) {
        let place = |name: &str| (file, key(name).to_string());
        self.declared.insert(place(&it.name), Target::Node(node));
        let is_data = it.form == blocks::Form::Data;
        for member in it.members.iter().filter(|_| is_data) {
            let target = Target::Constructor(node);
            self.declared.insert(place(&member.name), target);
        }
        if of.folder == Folder::FunctionProof && it.public {
            let place = (of.package.clone(), of.name.clone());
            self.proofs.entry(place).or_default().push(node);
        }
    }

    fn add_item(&mut self, package: &str, node: usize, item: &Item) {
        if item.form == Form::Function {
            self.functions.insert(node);
        }
        let name = item.name.clone();
        let nodes = match item.of {
            Some(_) => self.methods.entry(name).or_default(),
            None => self.items.entry((package.to_string(), name)).or_default(),
        };
        nodes.push(node);
    }

    /// What the proof of a function makes public: in the folder of its name, or in
    /// that of the functions that call one another.
    pub fn proofs(&self, package: &str, item: &Item) -> Vec<usize> {
        let cycle = item.cycle.as_ref().unwrap_or(&item.name);
        let folders = [item.name.clone(), format!("+{cycle}")].into_iter();
        let places = folders.map(|folder| (package.to_string(), folder));
        let nodes = places.filter_map(|place| self.proofs.get(&place));
        nodes.flatten().copied().collect()
    }

    /// What the marks of an item name, as `crate::proofs::File::law`.
    pub fn cited(&self, package: &str, item: &Item) -> Vec<usize> {
        let law = |path: &[String]| {
            let [at, folder, module @ .., name] = path else {
                return None;
            };
            let folder = match &folder[..] {
                "proofs" => Folder::Proofs,
                "specs" => Folder::Specs,
                _ => return None,
            };
            let of = if at == "crate" { package } else { at };
            let file = self
                .modules
                .get(&(of.to_string(), folder, module.join(".")))?;
            match self.declared.get(&(*file, key(name).to_string()))? {
                Target::Node(node) => Some(*node),
                _ => None,
            }
        };
        item.cited
            .iter()
            .filter_map(|word| law(&word.path))
            .collect()
    }

    pub fn items(&self, package: &str, name: &str) -> &[usize] {
        let place = (package.to_string(), name.to_string());
        self.items.get(&place).map_or(&[], |nodes| nodes)
    }
}
