//! What was tried.

#[derive(Default)]
pub struct Counts {
    pub inputs: u64,
    pub accepted: u64,
    pub refused_texts: u64,
    pub loaded: u64,
    pub refused_images: u64,
    pub attributes: u64,
    pub sessions: u64,
    pub wrong: u64,
}

impl Counts {
    pub fn print(&self) {
        println!(
            "{} texts accepted, {} refused",
            self.accepted, self.refused_texts
        );
        println!(
            "{} images loaded, {} refused",
            self.loaded, self.refused_images
        );
        println!(
            "{} attributes read, {} methods run",
            self.attributes, self.sessions
        );
        println!("{} inputs, {} wrong", self.inputs, self.wrong);
    }
}
