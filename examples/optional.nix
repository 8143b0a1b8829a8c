lib: cfg:
[
  (lib.optionalAttrs (cfg ? port) rec { port = cfg.port; })
  (lib.mkIf (cfg ? host) (let host = cfg.host; in host))
  (lib.other (cfg ? user) (let user = cfg.user; in user))
]

# names: 0 lib, 1 cfg, 2 port, 3 host, 4 user
# texts: 0 "lib", 1 "cfg", 2 "optionalAttrs", 3 "port", 4 "mkIf", 5 "host", 6 "other", 7 "user"
# expressions that the output can name:
#   0  lib
#   3  cfg
#   7  cfg
#   9  cfg.port
#  12  lib
#  15  cfg
#  19  cfg
#  21  cfg.host
#  22  host
#  25  lib
#  28  cfg
#  32  cfg
#  34  cfg.user
#  35  user
