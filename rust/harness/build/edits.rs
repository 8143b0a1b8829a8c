//! What is changed in the originals so that they compile beside the port and show what a walk needs.
//! Every text must stand exactly once in its file, or the build fails. The logic stays as it is.

pub enum Change {
    /// The first text becomes the second.
    Replace(&'static str, &'static str),
    /// All from the first text up to the second goes; the second stays.
    Cut(&'static str, &'static str),
}

use Change::{Cut, Replace};

pub struct Edit {
    pub file: &'static str,
    pub name: &'static str,
    pub change: Change,
}

const fn edit(file: &'static str, name: &'static str, change: Change) -> Edit {
    Edit { file, name, change }
}

pub const EDITS: &[Edit] = &[
    // lib.rs: parsing, lowering, comments and tracing are not at hand.
    edit(
        "lib.rs",
        "stand-ins in scope, unused modules out",
        Replace(
            "mod ast_utils;\npub mod classify;\nmod comment;\nmod lower;\n",
            "use crate::original::stand_ins::*;\n",
        ),
    ),
    edit(
        "lib.rs",
        "test module",
        Cut("#[cfg(any(test, feature", "use std::{fmt, ops"),
    ),
    edit(
        "lib.rs",
        "imports of comments and derive_more",
        Cut("pub use comment::line_of_offset;", "use la_arena::"),
    ),
    edit(
        "lib.rs",
        "import of lower",
        Replace("use lower::lower;\n", ""),
    ),
    edit(
        "lib.rs",
        "imports of the parser",
        Cut("use rnix::NixLanguage;", "use smol_str::SmolStr;"),
    ),
    edit(
        "lib.rs",
        "import of tracing",
        Replace("use tracing::instrument;\n", ""),
    ),
    edit(
        "lib.rs",
        "parsing",
        Cut(
            "/// Parse Nix source and lower",
            "/// Pre-built indices over",
        ),
    ),
    edit(
        "lib.rs",
        "tracing of module_indices",
        Replace(
            "#[instrument(level = \"info\", skip_all, name = \"module_indices\")]\n",
            "",
        ),
    ),
    edit(
        "lib.rs",
        "pipeline over source files",
        Cut(
            "/// All results from the syntax pipeline",
            "#[derive(Debug, Clone, PartialEq, Eq, Hash)]\npub struct Name {",
        ),
    ),
    edit(
        "lib.rs",
        "open Module::exprs",
        Replace("    exprs: Arena<Expr>,", "    pub exprs: Arena<Expr>,"),
    ),
    edit(
        "lib.rs",
        "open Module::names",
        Replace("    names: Arena<Name>,", "    pub names: Arena<Name>,"),
    ),
    edit(
        "lib.rs",
        "comments and diagnostics of Module",
        Cut("    pub type_dec_map:", "}\n\nimpl Module {"),
    ),
    edit(
        "lib.rs",
        "comments, diagnostics and source map",
        Cut("pub type AstPtr =", "type NixPath ="),
    ),
    edit(
        "lib.rs",
        "derived conversions of NormalBinOp",
        Replace(
            "#[derive(Debug, From, Clone, Copy, PartialEq, Eq)]\n#[from(forward)]\n",
            "#[derive(Debug, Clone, Copy, PartialEq, Eq)]\n",
        ),
    ),
    edit(
        "lib.rs",
        "derived conversions of BinOP",
        Replace(
            "#[derive(Debug, From, Clone, Copy, PartialEq, Eq)]\npub enum BinOP",
            "#[derive(Debug, Clone, Copy, PartialEq, Eq)]\npub enum BinOP",
        ),
    ),
    edit(
        "lib.rs",
        "derived conversions of BinOP::Normal",
        Replace("    #[from(NormalBinOp, ExprBinOp, BoolBinOp)]\n", ""),
    ),
    // nameres.rs
    edit(
        "nameres.rs",
        "stand-ins in scope",
        Replace(
            "use std::{iter, ops};\n",
            "use crate::original::stand_ins::*;\nuse std::{iter, ops};\n",
        ),
    ),
    edit(
        "nameres.rs",
        "import of tracing",
        Replace("use tracing::instrument;\n", ""),
    ),
    edit(
        "nameres.rs",
        "tracing of name_resolution",
        Replace(
            "#[instrument(level = \"info\", skip_all, name = \"name_resolution\")]\n",
            "",
        ),
    ),
    edit(
        "nameres.rs",
        "tracing of group_def",
        Replace(
            "#[instrument(level = \"info\", skip_all, name = \"group_def\")]\n",
            "",
        ),
    ),
    edit(
        "nameres.rs",
        "open NameResolution::resolve_map",
        Replace(
            "    resolve_map: ArenaMap<ExprId",
            "    pub resolve_map: ArenaMap<ExprId",
        ),
    ),
    edit(
        "nameres.rs",
        "open NameResolution::refs_by_name",
        Replace(
            "    refs_by_name: HashMap<",
            "    pub refs_by_name: HashMap<",
        ),
    ),
    edit(
        "nameres.rs",
        "open NameDependencies",
        Replace(
            "struct NameDependencies {\n    edges:",
            "pub struct NameDependencies {\n    \
             pub most_in_force: usize,\n    pub recorded: Vec<(NameId, usize)>,\n    pub edges:",
        ),
    ),
    edit(
        "nameres.rs",
        "nothing seen before the walk",
        Replace(
            "            edges: Vec::with_capacity(module.exprs.len()),\n",
            "            most_in_force: 0,\n            recorded: Vec::new(),\n            \
             edges: Vec::with_capacity(module.exprs.len()),\n",
        ),
    ),
    edit(
        "nameres.rs",
        "see how many narrowings are in force at a visit",
        Replace(
            "            self.traverse_expr_inner(module, name_res, binding_exprs, expr, curr_binding, active)\n",
            "            self.most_in_force = self.most_in_force.max(active.len());\n            \
             self.traverse_expr_inner(module, name_res, binding_exprs, expr, curr_binding, active)\n",
        ),
    ),
    edit(
        "nameres.rs",
        "see the order in which bindings record",
        Replace(
            "                self.narrow_scopes\n                    .entry(*name)",
            "                self.recorded.push((*name, active.len()));\n                \
             self.narrow_scopes\n                    .entry(*name)",
        ),
    ),
    edit(
        "nameres.rs",
        "open NameDependencies::name_to_expr",
        Replace(
            "    name_to_expr: HashMap<",
            "    pub name_to_expr: HashMap<",
        ),
    ),
    edit(
        "nameres.rs",
        "open NameDependencies::narrow_scopes",
        Replace(
            "    narrow_scopes: HashMap<",
            "    pub narrow_scopes: HashMap<",
        ),
    ),
    // narrow.rs
    edit(
        "narrow.rs",
        "stand-ins in scope",
        Replace(
            "use rustc_hash::FxHashMap as HashMap;\n",
            "use crate::original::stand_ins::*;\nuse rustc_hash::FxHashMap as HashMap;\n",
        ),
    ),
];
