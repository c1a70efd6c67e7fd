//! The constant pool of a class that is written.

/// The constants so far, and how many there are.
#[derive(Default)]
pub struct Constants {
    bytes: Vec<u8>,
    count: u16,
}

impl Constants {
    fn add(&mut self, tag: u8, bytes: &[u8]) -> u16 {
        self.bytes.push(tag);
        self.bytes.extend(bytes);
        self.count += 1;
        self.count
    }

    pub fn text(&mut self, text: &str) -> u16 {
        let length = (text.len() as u16).to_be_bytes();
        self.add(1, &[&length, text.as_bytes()].concat())
    }

    /// The class's index is one above that of its name.
    pub fn class(&mut self, name: &str) -> u16 {
        let name = self.text(name);
        self.add(7, &name.to_be_bytes())
    }

    pub fn method(&mut self, class: u16, name: &str, descriptor: &str) -> u16 {
        let (name, descriptor) = (self.text(name), self.text(descriptor));
        let both = [name.to_be_bytes(), descriptor.to_be_bytes()].concat();
        let both = self.add(12, &both);
        self.add(10, &[class.to_be_bytes(), both.to_be_bytes()].concat())
    }

    /// As the class file has them.
    pub fn written(&self) -> Vec<u8> {
        let count = (self.count + 1).to_be_bytes();
        [&count, self.bytes.as_slice()].concat()
    }
}
