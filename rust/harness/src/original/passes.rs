//! The original's passes run on a module, each answer in the form that the exported calls give: a record that comes from a
//! number literal is IsNumber there (`numbers`).

use std::cell::OnceCell;

use super::lang_ast::nameres::{
    GLOBAL_BUILTIN_NAMES, ModuleScopes, NameDependencies, NameResolution, ResolveResult,
    compute_name_resolution,
};
use super::lang_ast::narrow::{NarrowBinding, NarrowInfo, NarrowPredicate, analyze_condition};
use super::lang_ast::{ExprId, Module, NameId, compute_module_indices};
use super::module::module_from_tree;
use super::numbers;
use super::stand_ins::la_arena::Idx;
use super::stand_ins::lang_ty::{PrimitiveTy, stack::take_steps};
use super::stand_ins::rustc_hash::FxHashMap;
use crate::answers::{Condition, Dependencies};
use crate::image::{NONE, Tree};
use crate::records::{Narrowing, Record, edge, narrowing, record, record_of, sort, ty};
use crate::tables::{BUILTIN, DEFINITION, Given, WITH, entries, resolution, table};

/// The module of an image.
pub struct Subject {
    pub module: Module,
    /// The same with a path in place of each number literal, where it is asked for.
    with_paths: OnceCell<Module>,
}

/// The tables that conditions and the walk are given.
pub struct Tables {
    pub resolutions: NameResolution,
    pub bindings: FxHashMap<NameId, ExprId>,
}

pub struct Resolved {
    pub table: Vec<u8>,
    pub steps: u64,
    /// Scopes made, the root included.
    pub scopes: usize,
    /// Expressions visited: fewer than the steps where a shared one is visited again.
    pub visited: usize,
}

impl Tables {
    /// The tables that the original itself makes.
    pub fn own(module: &Module) -> Self {
        let scopes = ModuleScopes::new(module);
        Tables {
            resolutions: compute_name_resolution(module, &scopes),
            bindings: compute_module_indices(module).binding_expr,
        }
    }

    /// Tables from bytes that keep the rules of the calls.
    pub fn given(given: &Given) -> Self {
        let numbered = entries(&given.resolutions).enumerate();
        let resolve_map = numbered.map(|(e, entry)| (Idx::from_raw(e as u32), resolved(entry)));
        let bound = entries(&given.bindings).enumerate();
        let bound = bound.filter(|&(_, entry)| u32::from(entry) != NONE);
        Tables {
            resolutions: NameResolution {
                resolve_map: resolve_map.collect(),
                refs_by_name: FxHashMap::default(),
            },
            bindings: bound
                .map(|(n, e)| (Idx::from_raw(n as u32), Idx::from_raw(e.into())))
                .collect(),
        }
    }
}

fn resolved(entry: u16) -> Option<ResolveResult> {
    let value = entry & 0x3fff;
    match entry >> 14 {
        DEFINITION => Some(ResolveResult::Definition(Idx::from_raw(value.into()))),
        BUILTIN => Some(ResolveResult::Builtin(
            GLOBAL_BUILTIN_NAMES[usize::from(value)],
        )),
        WITH => Some(ResolveResult::WithExprs(
            Idx::from_raw(value.into()),
            vec![],
        )),
        _ => None,
    }
}

fn resolution_entry(result: Option<&ResolveResult>) -> u16 {
    match result {
        None => 0,
        Some(ResolveResult::Definition(name)) => resolution(DEFINITION, name.into_raw()),
        Some(ResolveResult::Builtin(builtin)) => {
            let place = GLOBAL_BUILTIN_NAMES.iter().position(|name| name == builtin);
            resolution(BUILTIN, place.expect("it is one of them") as u32)
        }
        Some(ResolveResult::WithExprs(innermost, _)) => resolution(WITH, innermost.into_raw()),
    }
}

/// A table of expressions by name.
fn expr_table(module: &Module, exprs: &FxHashMap<NameId, ExprId>) -> Vec<u8> {
    let entry = |name| exprs.get(&name).map_or(NONE, |e| e.into_raw()) as u16;
    table(module.names().map(|(name, _)| entry(name)))
}

impl Subject {
    /// The module of a tree whose texts are UTF-8.
    pub fn new(tree: &Tree) -> Self {
        Subject {
            module: module_from_tree(tree),
            with_paths: OnceCell::new(),
        }
    }

    /// The binding table.
    pub fn module_indices(&self) -> Vec<u8> {
        let indices = compute_module_indices(&self.module);
        expr_table(&self.module, &indices.binding_expr)
    }

    pub fn name_resolution(&self) -> Resolved {
        take_steps();
        let scopes = ModuleScopes::new(&self.module);
        let steps = take_steps();
        let resolutions = compute_name_resolution(&self.module, &scopes);
        let exprs = self.module.exprs();
        Resolved {
            table: table(exprs.map(|(e, _)| resolution_entry(resolutions.get(e)))),
            steps,
            scopes: scopes.scopes.len(),
            visited: scopes.scope_by_expr.iter().count(),
        }
    }

    /// The tables of the original's own passes.
    pub fn own_tables(&self) -> Given {
        Given {
            resolutions: self.name_resolution().table,
            bindings: self.module_indices(),
        }
    }

    /// The original's answer as it gives it.
    pub fn narrow(&self, tables: &Tables, condition: u32) -> NarrowInfo {
        narrow(&self.module, tables, condition)
    }

    fn with_paths(&self) -> &Module {
        let made = || numbers::with_paths(&self.module);
        self.with_paths.get_or_init(made)
    }

    /// With IsNumber where a record comes from a number literal.
    pub fn analyze_condition(&self, tables: &Tables, condition: u32) -> Condition {
        let told = self.condition_as_is(tables, condition);
        let records = told.then_list.iter().chain(&told.else_list);
        if !numbers::may_tell(records.copied()) {
            return told;
        }
        let again = condition_of(self.with_paths(), tables, condition);
        numbers::in_condition(&told, &again)
    }

    /// With the literal's type there, as the original has it.
    pub fn condition_as_is(&self, tables: &Tables, condition: u32) -> Condition {
        condition_of(&self.module, tables, condition)
    }

    /// With IsNumber where a record comes from a number literal.
    pub fn name_dependencies(&self, tables: &Tables) -> Dependencies {
        let walked = self.walk_as_is(tables);
        let records = walked.narrowings.iter().copied().map(record_of);
        if !numbers::may_tell(records) {
            return walked;
        }
        numbers::in_walk(walked, walk_of(self.with_paths(), tables))
    }

    /// With the literal's type there, as the original has it.
    pub fn walk_as_is(&self, tables: &Tables) -> Dependencies {
        walk_of(&self.module, tables)
    }
}

fn narrow(module: &Module, tables: &Tables, condition: u32) -> NarrowInfo {
    let (resolutions, bindings) = (&tables.resolutions, &tables.bindings);
    analyze_condition(module, resolutions, bindings, Idx::from_raw(condition))
}

fn condition_of(module: &Module, tables: &Tables, condition: u32) -> Condition {
    take_steps();
    let info = narrow(module, tables, condition);
    Condition {
        then_list: records(&info.then_branch),
        else_list: records(&info.else_branch),
        steps: take_steps(),
    }
}

fn walk_of(module: &Module, tables: &Tables) -> Dependencies {
    take_steps();
    let walked = NameDependencies::new(module, &tables.resolutions, &tables.bindings);
    let steps = take_steps();
    let edges = walked.edges.iter();
    Dependencies {
        edges: edges
            .map(|(from, to)| edge(from.into_raw(), to.into_raw()))
            .collect(),
        exprs: expr_table(module, &walked.name_to_expr),
        narrowings: narrowings(&walked),
        steps,
        most_in_force: walked.most_in_force,
    }
}

/// The original keeps what it records by binding, and within one by visits. So each list is dealt out in the order
/// in which bindings recorded.
fn narrowings(walked: &NameDependencies) -> Vec<Narrowing> {
    let lists = walked.narrow_scopes.iter();
    let mut left: FxHashMap<_, _> = lists.map(|(name, list)| (*name, &list[..])).collect();
    let mut dealt = Vec::new();
    for (name, count) in &walked.recorded {
        let list = left.get_mut(name).expect("a list of what it recorded");
        let (now, later) = list.split_at(*count);
        *list = later;
        let binding = name.into_raw();
        dealt.extend(now.iter().map(|n| narrowing(binding, narrowing_record(n))));
    }
    assert!(
        left.values().all(|list| list.is_empty()),
        "all is dealt out"
    );
    dealt
}

fn records(narrowings: &[NarrowBinding]) -> Vec<Record> {
    narrowings.iter().map(narrowing_record).collect()
}

fn narrowing_record(narrowing: &NarrowBinding) -> Record {
    let (sort, value) = match &narrowing.predicate {
        NarrowPredicate::IsType(ty) => (sort::IS_TYPE, type_number(*ty)),
        NarrowPredicate::IsNotType(ty) => (sort::IS_NOT_TYPE, type_number(*ty)),
        NarrowPredicate::HasField(key) => (sort::HAS_FIELD, key.number()),
        NarrowPredicate::NotHasField(key) => (sort::NOT_HAS_FIELD, key.number()),
        NarrowPredicate::IsAttrSet => (sort::IS_ATTR_SET, 0),
        NarrowPredicate::IsList => (sort::IS_LIST, 0),
        NarrowPredicate::IsFunction => (sort::IS_FUNCTION, 0),
    };
    record(narrowing.name.into_raw(), sort, value)
}

fn type_number(ty: PrimitiveTy) -> u32 {
    match ty {
        PrimitiveTy::Null => ty::NULL,
        PrimitiveTy::Bool => ty::BOOL,
        PrimitiveTy::Int => ty::INT,
        PrimitiveTy::Float => ty::FLOAT,
        PrimitiveTy::String => ty::STRING,
        PrimitiveTy::Path => ty::PATH,
    }
}

#[cfg(test)]
mod tests;
