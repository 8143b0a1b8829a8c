//! Texts that mean something to the passes, so that random trees reach the interesting branches.

/// The global names that need no `builtins.`.
pub const GLOBALS: [&str; 22] = [
    "abort",
    "baseNameOf",
    "builtins",
    "derivation",
    "dirOf",
    "false",
    "fetchGit",
    "fetchMercurial",
    "fetchTarball",
    "fetchTree",
    "fetchurl",
    "fromTOML",
    "import",
    "isNull",
    "map",
    "null",
    "placeholder",
    "removeAttrs",
    "scopedImport",
    "throw",
    "toString",
    "true",
];

/// Names of predicates, by which a call narrows its argument.
pub const PREDICATES: [&str; 9] = [
    "isNull",
    "isString",
    "isInt",
    "isFloat",
    "isBool",
    "isPath",
    "isAttrs",
    "isList",
    "isFunction",
];

/// Functions that use their last argument only where the first is true.
pub const CONDITIONALS: [&str; 4] = ["optionalString", "optionalAttrs", "optional", "mkIf"];

/// Names that programs bind.
pub const LOCALS: [&str; 6] = ["x", "y", "z", "cfg", "pkgs", "f"];

/// Names that mean something and that a program may bind all the same.
pub const SHADOWED: [&str; 8] = [
    "null", "true", "builtins", "isNull", "isString", "hasAttr", "optional", "lib",
];

pub const OTHERS: [&str; 8] = [
    "hasAttr",
    "lib",
    "types",
    "isnull",
    "isNul",
    "isNullx",
    "nul",
    "optionalStrings",
];
