"""What the tools share: models are read (`document`, `accessors`, `gltf`), turned into scenes (`views`, `occluders`,
`objects`, `lenses`, `convert`), and scenes are looked at (`scene`, `faults`, `depths`, `outlines`, `png`, `painting`,
`truth`). `notes` has what maskcull's lines mean, and `progress` tells on a terminal how far a tool is.

Only Python's standard library is needed; where `tqdm` is installed it draws the progress."""
