//! The facts that the original shows to its own crate alone.

use crate::analysis::{
    Analysis, CallSiteInformation, FunctionInformation, LetInformation, SemanticInformation,
};
use crate::parser::parser::SyntaxObjectId;

impl Analysis {
    pub fn identifier_at(&self, id: u32) -> Option<&SemanticInformation> {
        self.info.get(&SyntaxObjectId(id))
    }

    pub fn lambda_at(&self, id: u32) -> Option<&FunctionInformation> {
        self.function_info.get(&id)
    }

    pub fn let_at(&self, id: u32) -> Option<&LetInformation> {
        self.let_info.get(&id)
    }

    pub fn call_at(&self, id: u32) -> Option<&CallSiteInformation> {
        self.call_info.get(&id)
    }
}
