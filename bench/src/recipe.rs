//! Builds tables of words, leaves first. Each function adds rows and answers the number of the last.

/// The operators' numbers.
pub const SUM: u32 = 0;
pub const DIFFERENCE: u32 = 1;
pub const PRODUCT: u32 = 2;
pub const LESS: u32 = 5;

#[derive(Default)]
pub struct Recipe {
    words: Vec<u32>,
}

impl Recipe {
    fn row(&mut self, words: [u32; 4]) -> u32 {
        self.words.extend(words);
        (self.words.len() / 4 - 1) as u32
    }

    pub fn skip(&mut self) -> u32 {
        self.row([0, 0, 0, 0])
    }

    pub fn assign(&mut self, variable: u32, expression: u32) -> u32 {
        self.row([1, variable, expression, 0])
    }

    pub fn sequence(&mut self, first: u32, second: u32) -> u32 {
        self.row([2, first, second, 0])
    }

    pub fn branch(&mut self, test: u32, then: u32, otherwise: u32) -> u32 {
        self.row([3, test, then, otherwise])
    }

    pub fn repeat(&mut self, test: u32, body: u32) -> u32 {
        self.row([4, test, body, 0])
    }

    pub fn output(&mut self, channel: u32, expression: u32) -> u32 {
        self.row([5, channel, expression, 0])
    }

    pub fn constant(&mut self, value: u32) -> u32 {
        self.row([8, value, 0, 0])
    }

    pub fn variable(&mut self, variable: u32) -> u32 {
        self.row([9, variable, 0, 0])
    }

    pub fn binary(&mut self, operator: u32, left: u32, right: u32) -> u32 {
        self.row([10, operator, left, right])
    }

    /// `variable := variable + 1`
    pub fn count_up(&mut self, variable: u32) -> u32 {
        let left = self.variable(variable);
        let one = self.constant(1);
        let sum = self.binary(SUM, left, one);
        self.assign(variable, sum)
    }

    /// `variable < 4,294,967,295`, which holds for longer than any budget here.
    pub fn below_the_end(&mut self, variable: u32) -> u32 {
        let left = self.variable(variable);
        let end = self.constant(u32::MAX);
        self.binary(LESS, left, end)
    }

    /// Statements one after the other, as sequences that lean to the left.
    pub fn all(&mut self, statements: &[u32]) -> u32 {
        let (&first, rest) = statements.split_first().expect("a statement");
        rest.iter()
            .fold(first, |before, &next| self.sequence(before, next))
    }

    pub fn table(self) -> Vec<u32> {
        self.words
    }
}
