//! As much of the compiler's syntax tree as the pass touches.

pub mod interner {
    /// A name is its number.
    #[derive(Clone, Copy, Debug, PartialEq, Eq, Hash, PartialOrd, Ord)]
    pub struct InternedString(pub u32);
}

pub mod span {
    #[derive(Clone, Copy, Debug)]
    pub struct Span {
        pub start: u32,
        pub end: u32,
    }
}

pub mod tokens {
    use super::interner::InternedString;

    #[derive(Debug)]
    pub enum TokenType {
        Identifier(InternedString),
        Constant,
    }

    impl TokenType {
        pub fn identifier(&self) -> Option<&InternedString> {
            match self {
                TokenType::Identifier(name) => Some(name),
                TokenType::Constant => None,
            }
        }
    }
}

#[allow(clippy::module_inception)]
pub mod parser {
    use super::span::Span;
    use super::tokens::TokenType;

    #[derive(Clone, Copy, Debug, PartialEq, Eq, Hash, PartialOrd, Ord)]
    pub struct SyntaxObjectId(pub u32);

    #[derive(Debug)]
    pub struct SyntaxObject {
        pub ty: TokenType,
        pub span: Span,
        pub syntax_object_id: SyntaxObjectId,
    }
}

pub mod ast {
    use super::interner::InternedString;
    use super::parser::{SyntaxObject, SyntaxObjectId};
    use super::span::Span;
    use crate::classes::Class;
    use crate::run::note_atom;
    use std::fmt;

    pub static UNREADABLE_MODULE_GET: &Class = &Class::MODULE_GETTER;
    pub static STANDARD_MODULE_GET: &Class = &Class::MODULE_GETTER;

    #[derive(Debug)]
    pub enum ExprKind {
        Atom(Atom),
        If(Box<If>),
        Let(Box<Let>),
        Define(Box<Define>),
        LambdaFunction(Box<LambdaFunction>),
        Begin(Box<Begin>),
        List(List),
        Set(Box<Set>),
    }

    #[derive(Debug)]
    pub struct Atom {
        pub syn: SyntaxObject,
    }

    #[derive(Debug)]
    pub struct If {
        pub test_expr: ExprKind,
        pub then_expr: ExprKind,
        pub else_expr: ExprKind,
    }

    /// A binding is a name and its initial expression.
    #[derive(Debug)]
    pub struct Let {
        pub bindings: Vec<(ExprKind, ExprKind)>,
        pub body_expr: ExprKind,
        pub syntax_object_id: u32,
    }

    #[derive(Debug)]
    pub struct Define {
        pub name: ExprKind,
        pub body: ExprKind,
    }

    #[derive(Debug)]
    pub struct LambdaFunction {
        pub args: Vec<ExprKind>,
        pub body: ExprKind,
        pub syntax_object_id: u32,
    }

    #[derive(Debug)]
    pub struct Begin {
        pub exprs: Vec<ExprKind>,
    }

    #[derive(Debug)]
    pub struct List {
        pub args: Vec<ExprKind>,
        pub syntax_object_id: u32,
        pub location: Span,
    }

    #[derive(Debug)]
    pub struct Set {
        pub variable: ExprKind,
        pub expr: ExprKind,
    }

    // Named by the pass, and never made here.
    pub struct Quote;
    pub struct Vector;

    impl ExprKind {
        pub fn atom_identifier(&self) -> Option<&InternedString> {
            match self {
                ExprKind::Atom(atom) => atom.ident(),
                _ => None,
            }
        }

        pub fn atom_syntax_object(&self) -> Option<&SyntaxObject> {
            match self {
                ExprKind::Atom(atom) => Some(&atom.syn),
                _ => None,
            }
        }

        pub fn lambda_function(&self) -> Option<&LambdaFunction> {
            match self {
                ExprKind::LambdaFunction(lambda) => Some(lambda),
                _ => None,
            }
        }
    }

    impl Atom {
        pub fn ident(&self) -> Option<&InternedString> {
            note_atom(self.syn.syntax_object_id.0);
            self.syn.ty.identifier()
        }
    }

    impl Let {
        pub fn local_bindings(&self) -> impl Iterator<Item = &ExprKind> {
            self.bindings.iter().map(|(name, _)| name)
        }

        pub fn expression_arguments(&self) -> impl Iterator<Item = &ExprKind> {
            self.bindings.iter().map(|(_, initial)| initial)
        }
    }

    impl Define {
        pub fn name_id(&self) -> Option<SyntaxObjectId> {
            Some(self.name.atom_syntax_object()?.syntax_object_id)
        }

        pub fn is_an_alias_definition(&self) -> Option<SyntaxObjectId> {
            let body = self.body.atom_syntax_object()?;
            body.ty.identifier().map(|_| body.syntax_object_id)
        }
    }

    impl List {
        pub fn is_empty(&self) -> bool {
            self.args.is_empty()
        }

        pub fn first(&self) -> Option<&ExprKind> {
            self.args.first()
        }

        pub fn first_ident(&self) -> Option<&InternedString> {
            self.args.first()?.atom_identifier()
        }

        pub fn second_ident(&self) -> Option<&InternedString> {
            self.args.get(1)?.atom_identifier()
        }
    }

    // For messages before a panic that no tree here leads to.

    impl fmt::Display for ExprKind {
        fn fmt(&self, f: &mut fmt::Formatter<'_>) -> fmt::Result {
            write!(f, "{self:?}")
        }
    }

    impl fmt::Display for LambdaFunction {
        fn fmt(&self, f: &mut fmt::Formatter<'_>) -> fmt::Result {
            write!(f, "{self:?}")
        }
    }
}
