// A folder of scripts, numbered as they come.

use std::path::PathBuf;

pub struct Folder {
    path: PathBuf,
    pub made: u32,
}

impl Folder {
    pub fn new(path: &str) -> Folder {
        std::fs::create_dir_all(path).expect("cannot make the folder");
        Folder { path: PathBuf::from(path), made: 0 }
    }

    /// Gives the file that the script was written to.
    pub fn put(&mut self, name: &str, text: &[u8]) -> PathBuf {
        self.made += 1;
        let file = self.path.join(format!("{:04}_{}.txt", self.made, name));
        std::fs::write(&file, text).expect("cannot write a script");
        file
    }
}
