// The productions of modules, imports and exports (Grammar.antt, "modules"), by the names of their constructors.
import { is_reference_alone, may_be_exported, starts_with_directive } from "../guards.mjs";
import { KINDS, both, each, row } from "./rows.mjs";

// The context of a module's statements (in_module of the grammar), as far as a part has one.
const IN_MODULE = "[+in-yield+await]";

const ReadsModuleName = {
  a_word_name: row("ModuleName = v:name", "units_of v"),
  a_string_name: row("ModuleName = us:string", "us"),
};

const ReadsAttribute = {
  an_attribute: row("Attribute = v:name : us:string", "tree.import_attribute (nothing_of 0) (tree.identifier_name (named v)) (text_of us)"),
  an_attribute_by_string: row("Attribute = v:string : us:string", "tree.import_attribute (nothing_of 0) (text_of v) (text_of us)"),
};

const ReadsAttributes = {
  no_attribute: row("Attributes =", "no_trees"),
  last_attribute: row("Attributes = t:Attribute", "more t no_trees"),
  first_attribute: row("Attributes = t:Attribute , us:Attributes", "more t us"),
};

const ReadsSource = {
  a_source: row("Source = us:string", ["text_of us", "absent"]),
  a_source_with: row("Source = us:string with { es:Attributes }", [
    "text_of us",
    "given (tree.with_clause (bare (with_keyword with_keywords.With ∷ [])) es)",
  ]),
};

const ReadsSpecifier = {
  a_specifier: row("Specifier = v:free", "tree.import_specifier of_values (text_of (units_of v)) (tree.binding_identifier (unnumbered v))"),
  a_specifier_as: row("Specifier = k:ModuleName as v:free", "tree.import_specifier of_values (text_of k) (tree.binding_identifier (unnumbered v))"),
};

const ReadsSpecifiers = {
  no_specifier: row("Specifiers =", "no_trees"),
  last_specifier: row("Specifiers = t:Specifier", "more t no_trees"),
  first_specifier: row("Specifiers = t:Specifier , us:Specifiers", "more t us"),
};

const ReadsNamedImports = {
  imports_in_braces: row("NamedImports = { ss:Specifiers }", "ss"),
  a_namespace: row(
    "NamedImports = * as v:free",
    "more (tree.import_namespace_specifier (nothing_of 0) (tree.binding_identifier (unnumbered v))) no_trees",
  ),
};

const ReadsImportClause = {
  a_default_import: row(
    "ImportClause = v:free",
    "more (tree.import_default_specifier (nothing_of 0) (tree.binding_identifier (unnumbered v))) no_trees",
  ),
  named_imports: row("ImportClause = ss:NamedImports", "ss"),
  a_default_and_others: row(
    "ImportClause = v:free , ss:NamedImports",
    "more (tree.import_default_specifier (nothing_of 0) (tree.binding_identifier (unnumbered v))) ss",
  ),
};

const ReadsImport = {
  an_import_alone: row("Import = s,clause:Source", "tree.import_declaration of_values no_list s clause"),
  an_import_of: row("Import = ss:ImportClause from s,clause:Source", "tree.import_declaration of_values (listed ss) s clause"),
};

// Without a source what is exported is a reference.
const referenced = (source) => (source === "true" ? [] : [is_reference_alone("k")]);

const ReadsExported = {
  an_exported_name: both("source", (source) =>
    row(`Exported<${source}> = k:ModuleName`, "tree.export_specifier of_values (text_of k) (text_of k)", ...referenced(source)),
  ),
  an_exported_name_as: both("source", (source) =>
    row(`Exported<${source}> = k:ModuleName as l:ModuleName`, "tree.export_specifier of_values (text_of k) (text_of l)", ...referenced(source)),
  ),
};

const ReadsAllExported = {
  none_exported: both("source", (source) => row(`AllExported<${source}> =`, "no_trees")),
  last_exported: both("source", (source) => row(`AllExported<${source}> = t:Exported<${source}>`, "more t no_trees")),
  first_exported: both("source", (source) => row(`AllExported<${source}> = t:Exported<${source}> , us:AllExported<${source}>`, "more t us")),
};

const ReadsDeclared = {
  declared_variables: each("kind", KINDS, ({ name }) => row(`Declared = d:Variables<${name}>${IN_MODULE} END`, "d")),
  a_declared_function: row("Declared = t:Function<Declaration,false>", "t"),
  a_declared_class: row(`Declared = t:Class<Declaration,false>${IN_MODULE}`, "t"),
};

const ReadsDefault = {
  a_default_function: row("Default = t:Function<Declaration,true>", "t"),
  a_default_class: row(`Default = t:Class<Declaration,true>${IN_MODULE}`, "t"),
  a_default_expression: row(`Default = e:Assignment${IN_MODULE} END`, "e", may_be_exported("e")),
};

const ReadsExport = {
  an_exported_declaration: row("Export = t:Declared", "tree.export_declaration (nothing_of 0) t"),
  exported_names: row("Export = { ss:AllExported<false> } END", "tree.export_named_declaration of_values ss"),
  exported_names_from: row(
    "Export = { ss:AllExported<true> } from s,clause:Source END",
    "tree.export_from_declaration of_values ss s clause",
  ),
  all_exported: row("Export = * from s,clause:Source END", "tree.export_all_declaration of_values absent s clause"),
  all_exported_as: row(
    "Export = * as k:ModuleName from s,clause:Source END",
    "tree.export_all_declaration of_values (given (text_of k)) s clause",
  ),
  a_default_export: row("Export = default t:Default", "tree.export_default_declaration (nothing_of 0) t"),
};

const ReadsModuleItem = {
  a_module_statement: row("ModuleItem = t:Item[-return-yield+await]", "t"),
  an_import: row("ModuleItem = import t:Import END", "t"),
  an_export: row("ModuleItem = export t:Export", "t"),
};

const ReadsModuleItems = {
  no_module_item: row("ModuleItems =", "no_trees"),
  last_module_item: row("ModuleItems = s:ModuleItem", "more s no_trees"),
  first_module_item: row("ModuleItems = s:ModuleItem[-last] ss:ModuleItems", "more s ss"),
};

const ReadsModuleBody = {
  a_module_directive: row("ModuleBody = us:string ; ds,ss:ModuleBody", ["more (tree.directive (bare (units us ∷ []))) ds", "ss"]),
  module_items: row("ModuleBody = ss:ModuleItems", ["no_trees", "ss"], starts_with_directive("ss")),
};

const ReadsModule = {
  a_module: row("Module = directives,body:ModuleBody[-last]", "tree.program (nothing_of 4) no_trees absent directives body"),
};

export const MODULES = {
  ReadsModuleName, ReadsAttribute, ReadsAttributes, ReadsSource, ReadsSpecifier, ReadsSpecifiers, ReadsNamedImports, ReadsImportClause,
  ReadsImport, ReadsExported, ReadsAllExported, ReadsDeclared, ReadsDefault, ReadsExport, ReadsModuleItem, ReadsModuleItems,
  ReadsModuleBody, ReadsModule,
};
