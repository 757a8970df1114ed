//! The nodes of a FIT.

use crate::calls::{answer_of, bytes_of, fill_of, fill_of_two};
use crate::{sys, Error, Fit};

/// A property of a node of a FIT.
#[derive(Clone, Copy, Debug, PartialEq, Eq)]
#[non_exhaustive]
pub struct Property<'a> {
    /// The name.
    pub name: &'a [u8],
    /// The value.
    pub value: &'a [u8],
}

/// A node of a FIT.
#[derive(Clone, Debug, PartialEq, Eq)]
#[non_exhaustive]
pub struct Node<'a> {
    /// The name, which is empty for the root.
    pub name: &'a [u8],
    /// The number of nodes that contain the node: 0 for the root.
    pub depth: usize,
    /// The properties, in their order.
    pub properties: Vec<Property<'a>>,
}

/// The path of a node is `/` for the root, and else a `/` before the name of each node from a child
/// of the root down to it, for example `/images/kernel-1`. Paths and names are bytes or text. Each
/// call reads the file again; `nodes` reads all nodes by one.
///
/// ```
/// # let file = std::fs::read(concat!(env!("CARGO_MANIFEST_DIR"), "/../examples/board.itb"))?;
/// let board = bootimg::Fit::read(&file, bootimg::Limits::default())?;
/// assert_eq!(board.property("/images/kernel-1", "type")?, b"kernel\0");
/// # Ok::<(), Box<dyn std::error::Error>>(())
/// ```
impl<'a> Fit<'a> {
    /// Returns all nodes, the root first and each node before those below it, in their order. The
    /// whole tree is read once.
    ///
    /// # Errors
    ///
    /// `OutOfMemory`.
    pub fn nodes(&self) -> Result<Vec<Node<'a>>, Error> {
        let (elements, _) = fill_of(sys::bootimg_nodes, 1024, self.file, self.limits)?;
        let mut nodes: Vec<Node<'a>> = Vec::new();
        for element in &elements {
            let name = bytes_of(self.file, element.name);
            if element.kind != sys::ELEMENT_PROPERTY {
                nodes.push(Node {
                    name,
                    depth: element.depth as usize,
                    properties: Vec::new(),
                });
            } else if let Some(node) = nodes.last_mut() {
                let value = bytes_of(self.file, element.value);
                node.properties.push(Property { name, value });
            }
        }
        Ok(nodes)
    }

    /// Returns the names of the children of the node at a path, in their order.
    ///
    /// # Errors
    ///
    /// `NoNode` if no node has the path. `OutOfMemory`.
    pub fn children(&self, path: impl AsRef<[u8]>) -> Result<Vec<&'a [u8]>, Error> {
        let names = self.elements_at(sys::bootimg_children, path.as_ref())?;
        Ok(names
            .iter()
            .map(|&name| bytes_of(self.file, name))
            .collect())
    }

    /// Returns the properties of the node at a path, in their order.
    ///
    /// # Errors
    ///
    /// `NoNode` if no node has the path. `OutOfMemory`.
    pub fn properties(&self, path: impl AsRef<[u8]>) -> Result<Vec<Property<'a>>, Error> {
        let properties = self.elements_at(sys::bootimg_properties, path.as_ref())?;
        let property = |one: &sys::Property| Property {
            name: bytes_of(self.file, one.name),
            value: bytes_of(self.file, one.value),
        };
        Ok(properties.iter().map(property).collect())
    }

    /// Returns the value of the property of the node at a path that has the given name.
    ///
    /// # Errors
    ///
    /// `NoNode` if no node has the path, or `NoProperty` if the node has no such property.
    /// `OutOfMemory`.
    pub fn property(
        &self,
        path: impl AsRef<[u8]>,
        name: impl AsRef<[u8]>,
    ) -> Result<&'a [u8], Error> {
        let (path, name) = (path.as_ref(), name.as_ref());
        let answer = answer_of(|answer| {
            // Safety: the file, the path and the name are as long as their lengths, and `answer_of`
            // passes a struct of the library's.
            unsafe {
                sys::bootimg_property_value(
                    self.file.as_ptr(),
                    self.file.len(),
                    path.as_ptr(),
                    path.len(),
                    name.as_ptr(),
                    name.len(),
                    self.limits.limit,
                    self.limits.depth,
                    answer,
                )
            }
        })?;
        let (offset, size) = (answer.value, answer.size);
        Ok(bytes_of(self.file, sys::Region { offset, size }))
    }

    /// Returns the elements of the node at a path.
    fn elements_at<T: Clone + Default>(
        &self,
        call: sys::OnTwo<T>,
        path: &[u8],
    ) -> Result<Vec<T>, Error> {
        Ok(fill_of_two(call, 16, self.file, path, self.limits)?.0)
    }
}
