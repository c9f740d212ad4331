//! Tells Zed how the language server is started: `edd lsp`, where the program is on the PATH.

use zed_extension_api as zed;

struct Edd;

impl zed::Extension for Edd {
    fn new() -> Edd {
        Edd
    }

    fn language_server_command(
        &mut self,
        _server: &zed::LanguageServerId,
        worktree: &zed::Worktree,
    ) -> zed::Result<zed::Command> {
        let command = worktree.which("edd").ok_or("edd is not on the PATH")?;
        Ok(zed::Command {
            command,
            args: vec!["lsp".to_owned()],
            env: worktree.shell_env(),
        })
    }
}

zed::register_extension!(Edd);
