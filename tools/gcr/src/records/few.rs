//! Names to be told: the first few, and how many there are.

const TOLD: usize = 5;

#[derive(Default)]
pub struct Few {
    first: Vec<String>,
    count: usize,
}

impl Few {
    /// One more, whose name is asked for where it is told.
    pub fn add(&mut self, name: impl FnOnce() -> String) {
        if self.first.len() < TOLD {
            self.first.push(name());
        }
        self.count += 1;
    }

    /// What they are, in words for one or for more, and the names: `2 records have no event: a.gcr, b.gcr`. Nothing
    /// where there are none.
    pub fn remark(&self, one: &str, more: &str) -> Option<String> {
        let what = if self.count == 1 { one } else { more };
        let rest = match self.count - self.first.len() {
            0 => String::new(),
            rest => format!(" and {rest} more"),
        };
        (self.count > 0).then(|| format!("{} {what}: {}{rest}", self.count, self.first.join(", ")))
    }
}

#[cfg(test)]
mod tests {
    use super::*;

    #[test]
    fn of_many_names_some_are_told_and_the_rest_counted() {
        let remark = |count: usize| {
            let mut few = Few::default();
            (0..count).for_each(|number| few.add(|| number.to_string()));
            few.remark("is there", "are there")
        };
        assert_eq!(remark(0), None);
        assert_eq!(remark(1).unwrap(), "1 is there: 0");
        assert_eq!(remark(5).unwrap(), "5 are there: 0, 1, 2, 3, 4");
        assert_eq!(remark(12).unwrap(), "12 are there: 0, 1, 2, 3, 4 and 7 more");
    }
}
