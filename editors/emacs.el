;; Findings of asl lint while a definition is written.
(define-derived-mode asl-mode js-json-mode "ASL")
(add-to-list 'auto-mode-alist '("\\.asl\\.json\\'" . asl-mode))
(with-eval-after-load 'eglot
  (add-to-list 'eglot-server-programs '(asl-mode . ("asl" "lsp"))))
(add-hook 'asl-mode-hook #'eglot-ensure)
