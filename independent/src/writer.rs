//! Records as lists of two-byte numbers, for programs that make dossiers.

#[derive(Clone, Debug, PartialEq, Eq)]
pub struct Written {
    pub kind: u16,
    pub fields: Vec<u16>,
}

impl Written {
    pub fn new(kind: u16, fields: impl Into<Vec<u16>>) -> Self {
        Written {
            kind,
            fields: fields.into(),
        }
    }

    /// The leading fields of a line and then its members.
    pub fn line(leading: [u16; 6], members: impl IntoIterator<Item = u16>) -> Self {
        Written::new(7, leading.into_iter().chain(members).collect::<Vec<_>>())
    }

    /// A closing as inhabited from its marks (element, name) and edges (role name, from, to).
    pub fn model(
        claim: u16,
        point: u16,
        size: u16,
        marks: impl IntoIterator<Item = [u16; 2]>,
        edges: impl IntoIterator<Item = [u16; 3]>,
    ) -> Self {
        let marks: Vec<u16> = marks.into_iter().flatten().collect();
        let mut fields = vec![claim, point, size, (marks.len() / 2) as u16];
        fields.extend(marks);
        fields.extend(edges.into_iter().flatten());
        Written::new(10, fields)
    }

    pub fn body(&self) -> Vec<u8> {
        self.fields.iter().flat_map(|field| field.to_le_bytes()).collect()
    }

    pub fn write(&self, to: &mut Vec<u8>) {
        to.extend_from_slice(&((self.fields.len() * 2) as u16).to_le_bytes());
        to.extend_from_slice(&self.kind.to_le_bytes());
        to.extend(self.fields.iter().flat_map(|field| field.to_le_bytes()));
    }
}

pub fn write_all(records: &[Written]) -> Vec<u8> {
    let mut file = Vec::new();
    records.iter().for_each(|record| record.write(&mut file));
    file
}
