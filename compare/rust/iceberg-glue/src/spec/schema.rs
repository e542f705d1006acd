//! Stand-in for src/spec/schema: a schema of one column, built as the crate's is, and what `Reference::bind` calls.
use std::sync::Arc;

use super::NestedFieldRef;
use crate::expr::accessor::{StructAccessor, StructAccessorRef};
use crate::{Error, ErrorKind, Result};

#[derive(Debug)]
pub struct Schema {
    field: NestedFieldRef,
    accessor: StructAccessorRef,
}
pub type SchemaRef = Arc<Schema>;

impl Schema {
    pub fn builder() -> SchemaBuilder {
        SchemaBuilder { fields: vec![] }
    }
    pub fn field_by_name(&self, name: &str) -> Option<&NestedFieldRef> {
        (self.field.name == name).then_some(&self.field)
    }
    pub fn field_by_name_case_insensitive(&self, name: &str) -> Option<&NestedFieldRef> {
        self.field.name.eq_ignore_ascii_case(name).then_some(&self.field)
    }
    pub fn accessor_by_field_id(&self, id: i32) -> Option<StructAccessorRef> {
        (self.field.id == id).then(|| self.accessor.clone())
    }
}

pub struct SchemaBuilder {
    fields: Vec<NestedFieldRef>,
}

impl SchemaBuilder {
    pub fn with_fields(mut self, fields: impl IntoIterator<Item = NestedFieldRef>) -> Self {
        self.fields.extend(fields);
        self
    }
    pub fn build(self) -> Result<Schema> {
        let [field] = self.fields.try_into().map_err(|_| Error::new(ErrorKind::Unexpected, "stand-in: one column"))?;
        Ok(Schema { field, accessor: Arc::new(StructAccessor) })
    }
}
