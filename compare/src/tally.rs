//! Counts the cases of a comparison by how the port's answer stands to the original's.

/// So many unnamed differences are shown; the others are only counted.
const SHOWN: u64 = 40;

#[derive(Default)]
pub struct Tally {
    equal: u64,
    port_alone: u64,
    named: u64,
    /// The classes' names, and how many differences each has.
    classes: Vec<(&'static str, u64)>,
    unnamed: u64,
}

impl Tally {
    pub fn new(names: impl IntoIterator<Item = &'static str>) -> Self {
        Tally {
            classes: names.into_iter().map(|name| (name, 0)).collect(),
            ..Tally::default()
        }
    }

    pub fn cases(&self) -> u64 {
        self.equal + self.port_alone + self.named + self.unnamed
    }

    pub fn equal(&mut self) {
        self.equal += 1;
    }

    /// The original could not be asked, no class speaks of the case, and the port is right.
    #[cfg(any(feature = "port", feature = "map-port"))]
    pub fn port_alone(&mut self) {
        self.port_alone += 1;
    }

    /// A difference that is just what these classes say together.
    #[cfg(any(feature = "port", feature = "map-port"))]
    pub fn named(&mut self, classes: &[usize]) {
        self.named += 1;
        for &class in classes {
            self.classes[class].1 += 1;
        }
    }

    pub fn unnamed(&mut self, show: impl FnOnce()) {
        self.unnamed += 1;
        if self.unnamed <= SHOWN {
            show();
        }
        if self.unnamed == SHOWN {
            println!("further differences are only counted");
        }
    }

    /// Prints the table and the verdict; answers whether there was no unnamed difference.
    pub fn conclude(&self) -> bool {
        print_row("cases", self.cases());
        print_row("equal", self.equal);
        print_row("port alone, as its interface says", self.port_alone);
        print_row("named differences", self.named);
        for (name, count) in &self.classes {
            print_row(&format!("  {name}"), *count);
        }
        let in_classes: u64 = self.classes.iter().map(|(_, count)| count).sum();
        let twice = in_classes.saturating_sub(self.named);
        print_row("  of these in two classes", twice);
        print_row("unnamed differences", self.unnamed);
        match self.unnamed {
            0 => println!("no unnamed difference"),
            1 => println!("1 unnamed difference"),
            count => println!("{count} unnamed differences"),
        }
        self.unnamed == 0
    }
}

pub fn print_row(what: &str, count: u64) {
    println!("{what:36}{count:>12}");
}
