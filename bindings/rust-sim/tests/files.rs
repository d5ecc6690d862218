//! The files of the simulator are those of the system.
use lcmux_sim::fs::{self, File, OpenOptions};
use lcmux_sim::{Faults, Sim};
use std::io::{ErrorKind, SeekFrom};
use std::path::PathBuf;
use tokio::io::{AsyncReadExt, AsyncSeekExt, AsyncWriteExt};

struct Folder(PathBuf);

impl Folder {
    fn new(name: &str) -> Folder {
        let path = std::env::temp_dir().join(format!("lcmux-sim-{name}-{}", std::process::id()));
        std::fs::create_dir(&path).unwrap();
        Folder(path)
    }
}

impl Drop for Folder {
    fn drop(&mut self) {
        let _ = std::fs::remove_dir_all(&self.0);
    }
}

async fn use_files(folder: PathBuf) -> std::io::Result<()> {
    let path = folder.join("one");
    let mut file = File::create(&path).await?;
    file.write_all(b"hello world").await?;
    file.flush().await?;
    file.sync_all().await?;
    file.sync_data().await?;
    file.set_len(8).await?;
    assert_eq!(file.metadata().await?.len(), 8);
    assert_eq!(fs::read_to_string(&path).await?, "hello wo");

    let mut file = File::open(&path).await?;
    assert_eq!(file.seek(SeekFrom::Start(6)).await?, 6);
    let mut rest = String::new();
    file.read_to_string(&mut rest).await?;
    assert_eq!(rest, "wo");
    assert!(file.write_all(b"no").await.is_err());

    let mut options = OpenOptions::new();
    let taken = options.write(true).create_new(true).open(&path).await;
    assert_eq!(taken.unwrap_err().kind(), ErrorKind::AlreadyExists);
    let mut file = OpenOptions::new().append(true).open(&path).await?;
    file.write_all(b"rld").await?;
    fs::create_dir_all(folder.join("a/b")).await?;
    fs::hard_link(&path, folder.join("a/two")).await?;
    fs::rename(&path, folder.join("three")).await?;
    assert_eq!(
        fs::metadata(&path).await.unwrap_err().kind(),
        ErrorKind::NotFound
    );
    assert_eq!(fs::read(folder.join("a/two")).await?, b"hello world");
    fs::remove_file(folder.join("three")).await?;
    fs::remove_dir(folder.join("a/b")).await?;
    assert!(fs::symlink_metadata(folder.join("a")).await?.is_dir());
    fs::remove_dir_all(folder.join("a")).await
}

#[test]
fn files_are_those_of_the_system() {
    let folder = Folder::new("files");
    let path = folder.0.clone();
    let mut sim = Sim::new(5, Faults::timing());
    let run = sim.run(|_stream| use_files(path), |_stream| async {});
    run.a.unwrap().unwrap();
    assert_eq!(std::fs::read_dir(&folder.0).unwrap().count(), 0);
    assert!(
        !run.trace.entries().last().unwrap().at.is_zero(),
        "files take virtual time"
    );
}

/// Outside of a run, on another runtime.
#[test]
fn files_are_used_outside_of_a_run() {
    let folder = Folder::new("outside");
    let path = folder.0.clone();
    let runtime = tokio::runtime::Builder::new_current_thread()
        .build()
        .unwrap();
    runtime.block_on(use_files(path)).unwrap();
}
