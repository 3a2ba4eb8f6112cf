//! How many short sheets were read, and how many products of generators with Cliffords were cut.

use plain::short::MAX_SHORT_COUNT;

use super::numbered;

/// How many sheets are listed, by count.
const LISTED: [u64; MAX_SHORT_COUNT + 1] = [1, 15, 150];

/// How many sheets the listed products times Cliffords have: 166 times 23,040.
const PRODUCTS: usize = 3_824_640;

/// How many other products of two generators times Cliffords there are: 75 times 23,040.
const OTHER_PRODUCTS: usize = 1_728_000;

/// The tally of the short sheets.
pub struct Short {
    listed: [u64; LISTED.len()],
    products: usize,
    other_products: usize,
}

impl Short {
    pub fn new() -> Short {
        Short {
            listed: [0; LISTED.len()],
            products: 0,
            other_products: 0,
        }
    }

    /// Counts a sheet that was read.
    pub fn add(&mut self, count: u64) {
        self.listed[count as usize] += 1;
    }

    /// Counts the different sheets of listed products times Cliffords.
    pub fn add_products(&mut self, different: usize) {
        self.products += different;
    }

    /// Counts other products times Cliffords.
    pub fn add_other_products(&mut self, number: usize) {
        self.other_products += number;
    }

    /// Prints a line for the listed sheets, and two for the products.
    pub fn print(&self) {
        let sheets: u64 = self.listed.iter().sum();
        let by_count = numbered(&self.listed);
        println!("listed sheets: {sheets}, by count:{by_count}");
        let (products, others) = (self.products, self.other_products);
        println!("listed products times Cliffords: {products} different sheets");
        println!("other products times Cliffords: {others}, each with one of these sheets");
    }

    /// What is not all there.
    pub fn gaps(&self) -> Vec<String> {
        let mut gaps = Vec::new();
        if self.listed != LISTED {
            gaps.push("listed sheets".to_owned());
        }
        if self.products != PRODUCTS {
            gaps.push("different sheets of listed products times Cliffords".to_owned());
        }
        if self.other_products != OTHER_PRODUCTS {
            gaps.push("other products times Cliffords".to_owned());
        }
        gaps
    }
}
