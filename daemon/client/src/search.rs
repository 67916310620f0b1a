//! Searches, page after page.
use crate::asked::{Asked, Rests};
use crate::client::Client;
use crate::error::Error;
use crate::told::told;
use hyper::Method;
use serde::Deserialize;
use serde_json::{json, Value};
use std::collections::VecDeque;

/// A search, which is asked as it is read.
pub struct Search<'c> {
    client: &'c Client,
    path: &'static str,
    body: Value,
    key: &'static str,
    rests: Rests,
    limit: Option<usize>,
    names: VecDeque<String>,
    /// What asks for the next page; none where there is none.
    token: Option<String>,
    is_over: bool,
}

#[derive(Deserialize)]
struct Page {
    results: Vec<Value>,
    page: Next,
}

#[derive(Deserialize)]
struct Next {
    next_token: String,
}

impl<'c> Search<'c> {
    pub(crate) fn of(
        client: &'c Client,
        path: &'static str,
        body: Value,
        key: &'static str,
        rests: &Rests,
    ) -> Search<'c> {
        Search {
            client,
            path,
            body,
            key,
            rests: rests.clone(),
            limit: None,
            names: VecDeque::new(),
            token: None,
            is_over: false,
        }
    }

    /// So many names on a page.
    #[must_use]
    pub fn with_limit(self, limit: usize) -> Search<'c> {
        Search {
            limit: Some(limit),
            ..self
        }
    }

    /// The next name; none behind the last one. Of a subject that is not there: none.
    ///
    /// # Errors
    /// Where a page is not told.
    pub async fn next(&mut self) -> Result<Option<String>, Error> {
        while self.names.is_empty() && !self.is_over {
            self.read_page().await?;
        }
        Ok(self.names.pop_front())
    }

    /// All names that were not read yet.
    ///
    /// # Errors
    /// Where a page is not told.
    pub async fn all(mut self) -> Result<Vec<String>, Error> {
        let mut names = Vec::new();
        while let Some(name) = self.next().await? {
            names.push(name);
        }
        Ok(names)
    }

    async fn read_page(&mut self) -> Result<(), Error> {
        let mut page = json!({});
        if let Some(limit) = self.limit {
            page["limit"] = json!(limit);
        }
        if let Some(token) = &self.token {
            page["token"] = json!(token);
        }
        let mut body = self.body.clone();
        body["page"] = page;
        let asked: Asked = self.rests.asked(Method::POST, self.path, Some(body))?;
        let page: Page = told(&self.client.once(&asked).await?, &asked)?;
        let names = page.results.iter().map(|it| it[self.key].as_str());
        let names: Option<Vec<&str>> = names.collect();
        let names = names.ok_or_else(|| asked.bad("a result has no name"))?;
        self.names.extend(names.into_iter().map(str::to_owned));
        let token = Some(page.page.next_token).filter(|token| !token.is_empty());
        if token.is_some() && (self.names.is_empty() || token == self.token) {
            return Err(asked.bad("the pages do not end"));
        }
        self.is_over = token.is_none();
        self.token = token;
        Ok(())
    }
}
