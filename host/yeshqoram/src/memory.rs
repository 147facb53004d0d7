//! Memory that may not be there: asked for so that the lack of it is a failure
//! in words, and no abort.

use crate::failure::Failure;

/// So many zeros, with room for one more element behind them.
pub fn zeros<T: Clone + Default>(length: usize) -> Result<Vec<T>, Failure> {
    let mut list = Vec::new();
    list.try_reserve_exact(length.saturating_add(1))
        .map_err(|_| Failure::Wrong(format!("there is no memory for {}", sized::<T>(length))))?;
    list.resize(length, T::default());
    Ok(list)
}

fn sized<T>(length: usize) -> String {
    format!("{} bytes", length as u128 * size_of::<T>() as u128)
}

pub fn push<T>(list: &mut Vec<T>, item: T) -> Result<(), Failure> {
    list.try_reserve(1)?;
    list.push(item);
    Ok(())
}

/// Bytes that are written one part after the other.
#[derive(Default)]
pub struct Page(pub Vec<u8>);

impl Page {
    pub fn put(&mut self, bytes: impl AsRef<[u8]>) -> Result<(), Failure> {
        let bytes = bytes.as_ref();
        self.0.try_reserve(bytes.len())?;
        self.0.extend_from_slice(bytes);
        Ok(())
    }

    /// A line of fields, with tabs between them.
    pub fn row(&mut self, fields: &[&[u8]]) -> Result<(), Failure> {
        for (place, field) in fields.iter().enumerate() {
            if place > 0 {
                self.put(b"\t")?;
            }
            self.put(field)?;
        }
        self.put(b"\n")
    }
}
