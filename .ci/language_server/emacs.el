;;; Edits a text in Emacs by eglot, beside a language server.  -*- lexical-binding: t -*-
;;; These are 300 random edits, with line ends, brackets and wide characters. The last 100 leave
;;; the text in order. Is run by `.ci/lsp`, which says by the environment where and what the server
;;; is. At last the folder has `text`, the buffer's text.
(require 'package)
(package-initialize)
(require 'eglot)
(require 'json)

(defvar lsp-room (getenv "ROOM"))
(defvar lsp-command (append (json-parse-string (getenv "COMMAND")) nil))
(defvar lsp-bits
  ["x" "é" "e\u0301" "𝕏" "\n" "\n\n" "(" ")" "{ a }" "{" "}" "[" "]" "swap!(p q);" "swap!(1);"
   "/* ü 🦀 */" "// 𝕏\n" "'a" "\"s\"" "\"🦀\"" "/// é\n" ";\n"
   "macro_rules! 𝕏y { ($a:tt) => { $a } }\n" "𝕏y!(q);\n" "macro é($x:ident) { $x }\n"])

(defvar lsp-whole
  ["" " " "x" "é" "𝕏 " "\n" "{ a }" "swap!(p 𝕏);" "swap!(1);" "/* ü 🦀 */" " 'a " " \"🦀\""
   "macro_rules! 𝕏y { ($a:tt) => { $a } }\n" "𝕏y!(q);\n" "𝕏y!();" "macro é($x:ident) { $x }\n"]
  "What leaves a text in order, where it is put before a line or behind it.")

(define-derived-mode lsp-mode prog-mode "lsp")
(setq make-backup-files nil
      create-lockfiles nil
      eglot-sync-connect 20
      eglot-autoshutdown nil
      eglot-events-buffer-size 0)

(defun lsp-edit ()
  "Put a text in place of some characters, or take the last edit back."
  (let* ((start (+ (point-min) (random (1+ (buffer-size)))))
         (end (min (point-max) (+ start (if (= 0 (random 3)) (random 20) 0)))))
    (undo-boundary)
    (if (= 0 (random 10))
        (ignore-errors (let ((inhibit-message t)) (undo-only)))
      (delete-region start end)
      (goto-char start)
      (insert (aref lsp-bits (random (length lsp-bits)))))))

(defun lsp-add ()
  "Put a text before a line or behind it."
  (goto-char (+ (point-min) (random (1+ (buffer-size)))))
  (if (= 0 (random 2)) (beginning-of-line) (end-of-line))
  (insert (aref lsp-whole (random (length lsp-whole)))))

(defun lsp-edit-often (times change)
  "CHANGE the text so many TIMES, and tell of it now and then."
  (dotimes (_ times)
    (funcall change)
    (when (= 0 (random 4)) (lsp-tell))))

(defun lsp-tell ()
  "Send the edits that were not sent yet, and wait until their diagnostics have come.
Eglot 1.9 may loop for ever over those of an earlier text."
  (eglot--signal-textDocument/didChange)
  (jsonrpc-request (eglot-current-server) :textDocument/documentSymbol
                   (list :textDocument (eglot--TextDocumentIdentifier))
                   :timeout 20))

(defun lsp-main ()
  (random (getenv "SEED"))
  (set-language-environment "UTF-8")
  (find-file (concat lsp-room "/a.rs"))
  (lsp-mode)
  (buffer-enable-undo)
  (add-to-list 'eglot-server-programs (cons 'lsp-mode lsp-command))
  (apply #'eglot (eglot--guess-contact))
  (lsp-tell)
  (let ((begun (buffer-string)))
    (lsp-edit-often 200 #'lsp-edit)
    (erase-buffer)
    (insert begun))
  (lsp-edit-often 100 #'lsp-add)
  (lsp-tell)
  (let ((coding-system-for-write 'utf-8-unix))
    (write-region nil nil (concat lsp-room "/text") nil 'silent))
  (eglot-shutdown (eglot-current-server) nil 20))

(lsp-main)
(set-buffer-modified-p nil)
(kill-emacs 0)
