// The productions of bindings and of patterns of targets (Grammar.antt, "bindings" and "patterns of targets"), by the names of their
// constructors.
import { names_function, simple_target } from "../guards.mjs";
import { both, row } from "./rows.mjs";

const ReadsBinding = {
  a_bound_name: row("Binding = v:free", "tree.binding_identifier (unnumbered v)"),
  an_object_binding: row("Binding = { ps,rest:BindingProperties[+in] }", "tree.object_pattern (nothing_of 0) ps rest"),
  an_array_binding: row("Binding = [ es,rest:BindingElements[+in] ]", "tree.array_pattern (nothing_of 0) es rest"),
};

const ReadsBindingElement = {
  a_binding_alone: row("BindingElement = b:Binding", "b"),
  a_binding_with_default: row("BindingElement = b:Binding = e:Assignment", "tree.assignment_pattern (nothing_of 0) b e"),
};

const ReadsBindingElements = {
  no_binding_element: row("BindingElements =", ["no_trees", "absent"]),
  last_binding_element: row("BindingElements = e:BindingElement", ["more e no_trees", "absent"]),
  first_binding_element: row("BindingElements = e:BindingElement , es,rest:BindingElements", ["more e es", "rest"]),
  a_binding_elision: row("BindingElements = , es,rest:BindingElements", ["hole es", "rest"]),
  a_binding_rest: row("BindingElements = ... b:Binding", ["no_trees", "given (tree.binding_rest_element (nothing_of 0) b)"]),
};

const ReadsBindingProperty = {
  a_bound_shorthand: row(
    "BindingProperty = v:free",
    "tree.binding_property (computed_values false) (tree.identifier_name (named v)) (tree.binding_identifier (unnumbered v))",
  ),
  a_bound_shorthand_with_default: row(
    "BindingProperty = v:free = e:Assignment",
    "tree.binding_property (computed_values false) (tree.identifier_name (named v)) " +
      "(tree.assignment_pattern (nothing_of 0) (tree.binding_identifier (unnumbered v)) e)",
  ),
  a_bound_property: both("computed", (computed) =>
    row(`BindingProperty = k:Key<${computed}> : t:BindingElement`, "tree.binding_property (computed_values computed) k t"),
  ),
};

const ReadsBindingProperties = {
  no_binding_property: row("BindingProperties =", ["no_trees", "absent"]),
  last_binding_property: row("BindingProperties = p:BindingProperty", ["more p no_trees", "absent"]),
  first_binding_property: row("BindingProperties = p:BindingProperty , ps,rest:BindingProperties", ["more p ps", "rest"]),
  a_binding_rest_property: row("BindingProperties = ... v:free", [
    "no_trees",
    "given (tree.binding_rest_element (nothing_of 0) (tree.binding_identifier (unnumbered v)))",
  ]),
};

const ReadsPattern = {
  an_array_target: row("Pattern = [ es,rest:TargetElements[+in] ]", "tree.array_target (nothing_of 0) es rest"),
  an_object_target: row("Pattern = { ps,rest:TargetProperties[+in] }", "tree.object_target (nothing_of 0) ps rest"),
};

const ReadsTarget = {
  a_simple_target: row("Target = t:LeftHandSide", "u", simple_target("t", "u")),
  a_target_pattern: row("Target = t:Pattern", "t"),
};

const ReadsTargetElement = {
  a_target_alone: row("TargetElement = t:Target", "t"),
  a_target_with_default: row(
    "TargetElement = t:LeftHandSide = e:Assignment",
    "tree.target_with_default (nothing_of 0) u e",
    simple_target("t", "u"),
    names_function("assignment_operators.Assign", "t", "u", "e"),
  ),
  a_pattern_with_default: row("TargetElement = t:Pattern = e:Assignment", "tree.target_with_default (nothing_of 0) t e"),
};

const ReadsTargetElements = {
  no_target_element: row("TargetElements =", ["no_trees", "absent"]),
  last_target_element: row("TargetElements = e:TargetElement", ["more e no_trees", "absent"]),
  first_target_element: row("TargetElements = e:TargetElement , es,rest:TargetElements", ["more e es", "rest"]),
  a_target_elision: row("TargetElements = , es,rest:TargetElements", ["hole es", "rest"]),
  a_target_rest: row("TargetElements = ... t:Target", ["no_trees", "given (tree.target_rest (nothing_of 0) t)"]),
};

const ReadsTargetProperties = {
  no_target_property: row("TargetProperties =", ["no_trees", "absent"]),
  last_target_property: row("TargetProperties = p:TargetProperty", ["more p no_trees", "absent"]),
  first_target_property: row("TargetProperties = p:TargetProperty , ps,rest:TargetProperties", ["more p ps", "rest"]),
  a_target_rest_property: row(
    "TargetProperties = ... t:LeftHandSide",
    ["no_trees", "given (tree.target_rest (nothing_of 0) u)"],
    simple_target("t", "u"),
  ),
};

const ReadsTargetProperty = {
  a_target_shorthand: row(
    "TargetProperty = v:free",
    "tree.target_property (computed_values false) (tree.identifier_name (named v)) (tree.identifier_reference (unnumbered v))",
  ),
  a_target_shorthand_with_default: row(
    "TargetProperty = v:free = e:Assignment",
    "tree.target_property (computed_values false) (tree.identifier_name (named v)) " +
      "(tree.target_with_default (nothing_of 0) (tree.identifier_reference (unnumbered v)) e)",
  ),
  a_target_property: both("computed", (computed) =>
    row(`TargetProperty = k:Key<${computed}> : t:TargetElement`, "tree.target_property (computed_values computed) k t"),
  ),
};

export const PATTERNS = {
  ReadsBinding, ReadsBindingElement, ReadsBindingElements, ReadsBindingProperty, ReadsBindingProperties,
  ReadsPattern, ReadsTarget, ReadsTargetElement, ReadsTargetElements, ReadsTargetProperties, ReadsTargetProperty,
};
