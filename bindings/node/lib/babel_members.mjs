// The members of the nodes that Babel has where ESTree has others, beside those that both have (members.mjs).

/** By their types, of what members.mjs says that members hold. */
export function membersOfBabel({ node, maybe, list, text, flag, maybeFlag, any }) {
  const FUNCTION = { params: list(), body: node("BlockStatement"), async: maybeFlag(), generator: maybeFlag() };
  return {
    Directive: { value: node("DirectiveLiteral") },
    DirectiveLiteral: { value: text() },

    StringLiteral: { value: text() },
    NumericLiteral: { value: any() },
    BigIntLiteral: { value: any() },
    BooleanLiteral: { value: flag() },
    NullLiteral: {},
    RegExpLiteral: { pattern: text(), flags: text() },

    PrivateName: { id: node("Identifier") },
    Import: {},
    OptionalMemberExpression: { object: node(), property: node(), computed: maybeFlag(), optional: maybeFlag() },
    OptionalCallExpression: { callee: node(), arguments: list(), optional: maybeFlag() },
    ObjectProperty: { key: node(), value: node(), method: maybeFlag(), shorthand: maybeFlag(), computed: maybeFlag() },
    ObjectMethod: { kind: text(), key: node(), ...FUNCTION, method: maybeFlag(), computed: maybeFlag() },

    ClassMethod: { kind: text(), key: node(), ...FUNCTION, computed: maybeFlag(), static: maybeFlag() },
    ClassPrivateMethod: { kind: text(), key: node("PrivateName"), ...FUNCTION, static: maybeFlag() },
    ClassProperty: { key: node(), value: maybe(), computed: maybeFlag(), static: maybeFlag() },
    ClassPrivateProperty: { key: node("PrivateName"), value: maybe(), static: maybeFlag() },

    ExportNamespaceSpecifier: { exported: node("Identifier", "Literal", "StringLiteral") },
  };
}
